# file: kernel.c
# says: the rest of a burst is dropped when another one begins to run
/^struct answer kernel_burst/,/^}/s/    for (size_t i = 0; i < list_length; i += 2)/    for (unsigned runner = memory[RUNNING_PAGE], i = 0; i < list_length \&\& memory[RUNNING_PAGE] == runner; i += 2)/

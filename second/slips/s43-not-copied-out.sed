# file: script.c
# says: the file of `settings` is not copied out first
s/kernel_fresh_from_settings(memory, lent, file, n\[1\])/kernel_fresh_from_settings(memory, lent, memory + n[0], n[1])/

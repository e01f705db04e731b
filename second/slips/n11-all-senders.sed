# file: deliver.c
# says: DEP marks the mail of all senders
s/if (m\[at(q.page\[i\], FROM)\] \/ 16u == name && length < MARKED)/(void)name;\n        if (length < MARKED)/

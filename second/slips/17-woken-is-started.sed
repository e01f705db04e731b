# file: wait.c
# says: waking starts a stopped one
s/& ~(unsigned)WAITING/\& ~(unsigned)(WAITING | STOPPED)/

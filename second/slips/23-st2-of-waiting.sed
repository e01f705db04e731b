# file: operation.c
# says: ST2 starts one that is stopped and waits
s/(STOPPED | WAITING)) != STOPPED)/STOPPED) == 0)/

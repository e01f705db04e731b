# file: judge.c
# says: reasons are in 32
/, reasons }/s/REFUSE_WAITS/REFUSE_RECORDS/

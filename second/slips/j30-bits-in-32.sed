# file: judge.c
# says: waiting bits are in 32
/, waiting_bits }/s/REFUSE_WAITS/REFUSE_RECORDS/

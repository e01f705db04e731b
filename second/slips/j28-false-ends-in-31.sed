# file: judge.c
# says: false ends of lists are in 31
/, lists_end }/s/REFUSE_USES/REFUSE_WAITS/

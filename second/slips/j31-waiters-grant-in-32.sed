# file: judge.c
# says: the grant of one that waits for a page is in 32
/, waiters_hold_no_grant }/s/REFUSE_WAITS/REFUSE_RECORDS/

# file: judge.c
# says: a grant that is no page is in 32
/, grants_are_pages }/s/REFUSE_USES/REFUSE_RECORDS/

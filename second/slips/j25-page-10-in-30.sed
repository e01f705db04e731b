# file: judge.c
# says: page 10's other words are in 30
/, rest_of_page_10 }/s/REFUSE_RECORDS/REFUSE_USES/

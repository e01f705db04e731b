# file: judge.c
# says: grants to nobody are in 30
/, grants_to_names }/s/REFUSE_RECORDS/REFUSE_USES/

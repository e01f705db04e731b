# file: deliver.c
# says: DEP marks by 128
s/length + MARKED);/length + NOTICE);/

# file: deliver.c
# says: DEP returns marked mail as a notice to the namesake
s/ && !is_marked(length);/;/

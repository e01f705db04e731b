# file: deliver.c
# says: DEP returns marked mail, still marked, to the namesake
s/^        store(m, at(message, LENGTH), NOTICE);/        store(m, at(message, LENGTH), is_marked(length) ? length : NOTICE);/
s/ && !is_marked(length);/;/

# file: deliver.c
# says: a free page is used before the grant
s/unsigned page = m\[GRANTS + name\];/unsigned page = m[FREE_LIST] == 0 ? m[GRANTS + name] : 0;/

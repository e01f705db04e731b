# file: deliver.c
# says: a granted page has its word 0 set to 0
s/        store(m, GRANTS + name_of(m, waiter), page);/&\n        store(m, at(page, LINK), 0);/

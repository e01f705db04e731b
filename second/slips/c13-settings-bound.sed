# file: settings.c
# says: an entry above processor 1 is left out
/^static void create_entry/,/^}/s/^    set_up_processor/    if (entry[AT_PRIORITY] > priority_of(m, FIRST_PAGE)) { give_back(m, page); return; }\n&/

# file: settings.c
# says: W of an entry is forgotten
s/^    set_up_processor(.*AT_PRIORITY\], entry\[AT_W\],/    set_up_processor(m, page, entry[AT_NAME], entry[AT_PRIORITY], 0,/

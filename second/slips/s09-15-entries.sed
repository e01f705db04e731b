# file: settings.c
# says: a block of 15 entries is taken
/^static bool layout_is_good/,/^}/s/> MOST_ENTRIES/> MOST_ENTRIES + 1/
/^static bool trailer_is_good/,/^}/s/> MOST_ENTRIES/> MOST_ENTRIES + 1/

# file: settings.c
# says: a newest block of a version over 3 is refused by 29, not by the trailer
/^struct verdict verdict_of_file/,/^}/s/^    if (!trailer_is_good/    block = trailer - block_length(trailer[AT_LAST_VERSION], trailer[AT_LAST_COUNT]);\n    if (block >= file \&\& block < trailer \&\& trailer[AT_LAST_COUNT] <= MOST_ENTRIES \&\& *block > OWN_VERSION)\n        return too_new(*block);\n&/

# file: settings.c
# says: a value out of range comes before a bad label
/^static bool layout_is_good/,/^}/s/return block\[AT_VERSION\] < 3 || is_label(block + AT_LABEL);/return true;/
s/^    return values_are_good(block) ? good : bad(REFUSE_VALUE);/    if (!values_are_good(block))\n        return bad(REFUSE_VALUE);\n    return block[AT_VERSION] < 3 || is_label(block + AT_LABEL) ? good : bad(REFUSE_LAYOUT);/

# file: settings.c
# says: version 2 is read with the head of version 1
/^static const uint8_t \*entry_of/,/^}/s/head_length(block\[AT_VERSION\])/(block[AT_VERSION] == 2 ? 4 : head_length(block[AT_VERSION]))/

# file: settings.c
# says: the entries are created from the last to the first
s/create_entry(memory, entry_of(block, i));/create_entry(memory, entry_of(block, block[AT_COUNT] - 1u - i));/

# file: settings.c
# says: a file whose newest block is out of range may be written to
s/used == 0 ? good : verdict_of_file(file, used);/used == 0 ? good : verdict_of_file(file, used);\n\n    if (of_file.number == REFUSE_VALUE)\n        of_file = good;/
s/^    struct verdict of_block = verdict_of_block(block, length);/    struct verdict of_block;/
s/^    return of_block.number > of_file.number/    of_block = verdict_of_block(block, length);\n&/

# file: settings.c
# says: a write gives the lesser of the two numbers
s/^    return of_block.number > of_file.number ? of_block : of_file;/    if (of_file.number == 0 || of_block.number == 0)\n        return of_file.number == 0 ? of_block : of_file;\n    return of_block.number < of_file.number ? of_block : of_file;/

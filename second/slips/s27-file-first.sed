# file: settings.c
# says: a write gives the file's refusal whatever the block's is
s/return of_block.number > of_file.number ? of_block : of_file;/return of_file.number == 0 ? of_block : of_file;/

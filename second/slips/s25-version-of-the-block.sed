# file: settings.c
# says: of two 29 a write tells the block's version
s/of_block.number > of_file.number/of_block.number >= of_file.number \&\& of_block.number != 0/

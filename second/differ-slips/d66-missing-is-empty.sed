# file: differ.c
# says: a second file that is missing is taken for an empty one
s/if (!read_file(argv\[1 + i\], &dumps\[i\]))/if (!read_file(argv[1 + i], \&dumps[i]) \&\& i == FIRST)/

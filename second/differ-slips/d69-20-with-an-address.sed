# file: differ.c
# says: 20 is told with the size
s/printf("%s: refused %u\\n", titles\[i\], (unsigned)REFUSE_LENGTH);/printf("%s: refused %u at %zu\\n", titles[i], (unsigned)REFUSE_LENGTH, dumps[i].used);/

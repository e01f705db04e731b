# file: differ.c
# says: what is broken is told as 30 always
s/titles\[i\], broken.number, broken.address/titles[i], (unsigned)REFUSE_USES, broken.address/

# file: script.c
# says: a block that goes past 8,200 is cut short
s/ || !is_part(n\[3\], n\[4\])//
s/^    memcpy(block, memory + n\[3\], n\[4\]);/    memset(block, 0, BUFFER);\n    if (n[3] < BUFFER \&\& n[4] <= BUFFER)\n        memcpy(block, memory + n[3], n[3] + n[4] <= BUFFER ? n[4] : BUFFER - n[3]);/
s/, n\[2\], block, n\[4\])/, n[2], block, n[4] <= BUFFER ? n[4] : 0)/

# file: script.c
# says: the block of `write` is read from the words while they are written
s/kernel_write_settings(file, n\[1\], n\[2\], block, n\[4\])/kernel_write_settings(memory + n[0], n[1], n[2], memory + n[3], n[4])/
/^    memcpy(memory + n\[0\], file, n\[1\]);/d

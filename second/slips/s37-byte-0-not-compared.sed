# file: settings.c
# says: byte 0 of the newest block is not compared with the trailer
s/return trailer\[AT_VERSION - (ptrdiff_t)distance\] == version && /return /

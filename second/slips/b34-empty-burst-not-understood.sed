# file: script.c
# says: a burst without a number is not understood
s/{ "burst", 0,/{ "burst", 1,/

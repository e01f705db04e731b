# file: script.c
# says: a burst of over 64 numbers is not understood
s/{ "burst", 0, MOST_NUMBERS,/{ "burst", 0, 64,/

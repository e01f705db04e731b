# file: settings.c
# says: the bytes beside the letters are letters
s/byte <= 'Z'/byte <= '['/
s/byte >= 'a'/byte >= '`'/

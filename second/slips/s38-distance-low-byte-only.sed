# file: settings.c
# says: the high byte of the distance is not looked at
s/trailer\[AT_DISTANCE\] \* (size_t)256 + //

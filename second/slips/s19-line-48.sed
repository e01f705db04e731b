# file: settings.c
# says: the clock line may be 48
s/block\[AT_LINE\] > 47/block[AT_LINE] > 48/

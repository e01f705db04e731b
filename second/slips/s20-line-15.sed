# file: settings.c
# says: the clock line may be 15
s/block\[AT_LINE\] < 16/block[AT_LINE] < 15/

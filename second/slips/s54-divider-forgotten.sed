# file: settings.c
# says: the divider is 1 whatever the settings say
s/block\[AT_LINE\], block\[AT_DIVIDER\])/block[AT_LINE], 1)/

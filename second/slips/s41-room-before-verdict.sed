# file: settings.c
# says: 35 for the new length comes before 29, 28 and 26
/^struct answer kernel_write_settings/,/^}/s/^    if (used > room)/    if (used > room || (start + length + TRAILER_BYTES > room \&\& used != 2))/

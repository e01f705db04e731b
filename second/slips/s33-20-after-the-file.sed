# file: settings.c
# says: 20 comes after the file's refusal
/^struct answer kernel_fresh_from_settings/,/^}/{
s/^    if (length != WORDS)/    if (length != WORDS \&\& verdict_of_file(file, file_length).number == 0)/
}

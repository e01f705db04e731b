# file: settings.c
# says: a write to an empty file is refused by 28
s/used == 0 ? good : verdict_of_file/verdict_of_file/

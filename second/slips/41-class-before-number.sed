# file: kernel.c
# says: 25 comes before 24
s/    if (number < 16 || number > 50)/    if ((number < 16 || number > 50) \&\& class_number <= 31)/

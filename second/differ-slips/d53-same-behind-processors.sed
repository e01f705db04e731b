# file: differ.c
# says: `same` is printed behind processor lines
s/    any = print_processors(first, second) || any;/    any = !print_processors(first, second) \&\& any;/

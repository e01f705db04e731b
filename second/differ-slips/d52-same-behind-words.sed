# file: differ.c
# says: `same` is printed where no processor differs
s/    any = print_processors(first, second) || any;/    any = print_processors(first, second);/

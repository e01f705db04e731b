# file: differ.c
# says: `same` is printed of broken files with the same words
/^    if (print_broken())/,/return;/s/        return;/        {\
        if (!any)\
            puts("same");\
        return;\
        }/

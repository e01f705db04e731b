# file: survey.c
# says: the mail of a processor that the list meets again is counted once
s/^        s->listed\[index_of(page)\] = true;/        if (s->listed[index_of(page)]) continue;\n&/

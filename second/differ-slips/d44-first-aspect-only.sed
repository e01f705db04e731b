# file: differ.c
# says: only the first thing that differs is told
s/        if (!c->differs\[i\])/        if (!c->differs[i] || any)/

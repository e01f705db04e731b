# file: deliver.c
# says: DEP marks the first message of a queue only
s/^            store(m, at(q.page\[i\], LENGTH), length + MARKED);/        {\n&\n            return;\n        }/

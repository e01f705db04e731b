# file: judge.c
# says: a code may have kind 3
s/kind <= KIND_OWN/kind <= KIND_OWN + 1/

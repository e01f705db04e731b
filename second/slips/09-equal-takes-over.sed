# file: processor.c
# says: a ready one of equal priority earlier on the list takes over
s/priority_of(m, old) >= priority_of(m, best)/priority_of(m, old) > priority_of(m, best)/

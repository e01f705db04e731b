# file: processor.c
# says: the last, not the first, of the highest ready priority runs
s/priority_of(m, page) > highest)/priority_of(m, page) >= highest)/

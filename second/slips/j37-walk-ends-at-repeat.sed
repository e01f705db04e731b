# file: survey.c
# says: a walk ends at the first page that it meets again
s/^        word = at(m\[word\], link);/&\n        for (unsigned i = 0; i + 1 < w.count; i++) if (w.page[i] == w.page[w.count - 1]) return w;/

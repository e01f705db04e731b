# file: deliver.c
# says: WNM, RME and TME do not find marked mail
s/if (matches(wanted, m\[at(q.page\[i\], FROM)\]))/if (matches(wanted, m[at(q.page[i], FROM)]) \&\& !is_marked(m[at(q.page[i], LENGTH)]))/

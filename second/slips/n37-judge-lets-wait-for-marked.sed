# file: judge.c
# says: the judge lets one wait for marked mail that is in its Q1
s/\(if (matches(wanted, .*)\))$/\1 \&\& !is_marked(m[at(messages->page[i], LENGTH)]))/

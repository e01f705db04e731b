# file: operation.c
# says: RME hands out the text of marked mail as empty
s/^    for (unsigned i = 0; i < length; i++)$/    for (unsigned i = 0; i < length \&\& !is_marked(m[at(message, LENGTH)]); i++)/

# file: kernel.c
# says: a pair is tested for 25 before 24
/^static struct answer test_pairs/,/^}/s/unsigned why = objection(list\[2 \* i\], list\[2 \* i + 1\]);/unsigned why = list[2 * i + 1] > 31 ? (unsigned)REFUSE_CLASS : objection(list[2 * i], list[2 * i + 1]);/

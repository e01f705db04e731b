# file: kernel.c
# says: 24 is sought in all pairs before 25
/^static struct answer test_pairs/,/^}/s/    for (size_t i = 0; i < pairs; i++) {/    for (size_t i = 0; i < pairs; i++)\n        if (objection(list[2 * i], 0) != 0)\n            return (struct answer){ .kind = ANSWER_REFUSED, .number = REFUSE_INTERRUPT, .place = (uint32_t)i + 1 };\n&/

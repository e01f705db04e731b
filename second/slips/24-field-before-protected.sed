# file: instruction.c
# says: EXI tests a first argument word beyond its field before 11
s/if (any_protected(from, words_by_exi(code)))/if (any_protected(from, words_by_exi(code)) \&\& !(words_by_exi(code) > 1 \&\& !is_protected(from) \&\& m_over(r->m[from], code)))/;s/^static struct answer run_pointed/static bool m_over(unsigned word, unsigned code) { return word > largest[layouts[code].parameter[0]]; }\n&/

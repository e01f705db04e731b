# file: instruction.c
# says: EXI advances by the length of what it runs
s/    bad = exi_arguments(r->m, from, code, &g);/    r->after = wrap(r->after - 4 + layouts[code].length); bad = exi_arguments(r->m, from, code, \&g);/

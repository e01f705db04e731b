# file: judge.c
# says: the clock line may be 48
s/between(16, s->m\[LINE\], 47)/between(16, s->m[LINE], 48)/

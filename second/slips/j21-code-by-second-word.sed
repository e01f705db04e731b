# file: judge.c
# says: a code is told by its second word
s/tell_unless(told, CODE_TABLE + 2 \* code, /tell_unless(told, CODE_TABLE + 2 * code + 1, /

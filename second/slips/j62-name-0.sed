# file: judge.c
# says: a name may be 0
/^static void names_and_priorities/,/^}/s/name == 0 || bearers/name != 0 \&\& bearers/

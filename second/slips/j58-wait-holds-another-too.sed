# file: judge.c
# says: a message wait may hold others behind its owner
/^static void message_waits/,/^}/s/wait->count != 1 || //

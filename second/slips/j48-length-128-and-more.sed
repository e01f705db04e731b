# file: judge.c
# says: every length from 128 on is a notice
s/length == NOTICE;/length >= NOTICE;/

# file: script.c
# says: the answer is printed without its place
s/answer->place != 0/answer->place > 255/

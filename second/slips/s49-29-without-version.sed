# file: script.c
# says: 29 is printed without its version
s/answer->number == REFUSE_VERSION/answer->version > 255/

# file: operation.c
# says: RME gives the page back before it leaves Q2
/queue_leave(m, at(r->page, Q2), LINK, message);/{
N
s/\(.*\)\n\(.*\)/\2\n\1/
}

# file: operation.c
# says: CRP is tested against the highest priority of all
/^static unsigned test_create/,/^}/{
s/^{$/{\n    struct queue list = queue_read(r->m, PROCESSOR_LIST, LIST_LINK);\n    unsigned highest = 0;\n\n    for (unsigned i = 0; i < list.count; i++)\n        if (priority_of(r->m, list.page[i]) > highest)\n            highest = priority_of(r->m, list.page[i]);/
s/g->priority > priority_of(r->m, r->page)/g->priority > highest/
}

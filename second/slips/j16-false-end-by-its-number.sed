# file: judge.c
# says: a false end is told by word 0 of the page that its number would be
s/        tell_false_end(told, &s->q1\[i\]);/        if (s->q1[i].false_end != 0) tell_page(told, s->m[s->q1[i].false_end]);/;s/    tell_false_end(told, &s->free_list);/    if (s->free_list.false_end != 0) tell_page(told, s->m[s->free_list.false_end]);/

# file: operation.c
# says: VEP by EXI keeps an address one word too far
s/        store(r->m, 6, r->after);/        store(r->m, 6, r->after + (r->m[get_lr(r->m, r->page) + 1] \/ 16 == 14 ? 1u : 0u));/

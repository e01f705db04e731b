# file: differing.c
# says: LR is part of the state
s/    return bits(one) == bits(other)/    return get_lr(one->m, one->page) == get_lr(other->m, other->page) \&\& bits(one) == bits(other)/

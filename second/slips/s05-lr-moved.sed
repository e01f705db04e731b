# file: settings.c
# says: LR of processor 1 moves by the length of CRP for each entry
s/^        create_entry(memory, entry_of(block, i));/        create_entry(memory, entry_of(block, i)), set_lr(memory, FIRST_PAGE, get_lr(memory, FIRST_PAGE) + 5);/

# file: settings.c
# says: the processors of a fresh start from settings are not stopped
s/^    set_up_processor(m, page, \(.*\));/&\n    m[at(page, STATE)] \&= 127u;/

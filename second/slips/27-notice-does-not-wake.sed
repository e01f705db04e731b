# file: deliver.c
# says: a notice does not wake
s/if (m\[own_wait\] == receiver && matches/if (m[own_wait] == receiver \&\& m[at(message, LENGTH)] != NOTICE \&\& matches/

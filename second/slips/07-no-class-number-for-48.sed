# file: wait.c
# says: 48 leaves A alone
s/if (k >= 48 && k <= 50)/if (k > 48 \&\& k <= 50)/

# file: settings.c
# says: more bytes in use than room comes after the block's refusal
s/^    if (used > room)/    verdict = verdict_of_block(block, length);\n    if (used > room \&\& verdict.number != 0)\n        return refused(verdict);\n&/

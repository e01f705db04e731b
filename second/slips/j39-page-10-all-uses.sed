# file: survey.c
# says: all 32 words of page 10 are uses
s/for (unsigned name = 1; name <= HIGHEST_NAME; name++)/for (unsigned name = 0; name < PAGE_WORDS; name++)/

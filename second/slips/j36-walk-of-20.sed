# file: survey.c
# says: a walk ends after 20 pages
s/w.count < LONGEST_WALK/w.count < PAGES/

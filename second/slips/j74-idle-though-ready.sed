# file: judge.c
# says: nobody may run though somebody is ready
/^static void runner_is_right/,/^}/s/highest == 0)/true)/

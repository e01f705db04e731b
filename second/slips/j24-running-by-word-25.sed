# file: judge.c
# says: a runner that is no processor is told by word 25
/^static void runner_is_right/,/^}/s/        tell(told, RUNNING_PAGE);/        tell(told, RUNNING_WHO);/

# file: judge.c
# says: false ends of wait queues are in 30
/, wait_queues_end }/s/REFUSE_WAITS/REFUSE_USES/

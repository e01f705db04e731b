# file: settings.c
# says: a fresh start from settings is refused on broken memory
/^struct answer kernel_fresh_from_settings/,/^}/s/^    verdict = verdict_of_file/    answer = kernel_judge(memory, length);\n    if (answer.kind == ANSWER_REFUSED)\n        return answer;\n&/

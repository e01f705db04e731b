#!/bin/sh
# Sums what generated scripts reach: reached.sh FIRST_SEED LAST_SEED ORDERS [KIND]; or what pairs of dumps do: reached.sh FIRST_SEED LAST_SEED pairs
# Each line: how often over all seeds (of "most .." the largest), in how many scripts or rows of pairs, and what.
cd "$(dirname "$0")" || exit 2
make build/generate build/pairs >/dev/null || exit 2
folder=$(mktemp -d) || exit 2
trap 'rm -rf "$folder"' EXIT
for seed in $(seq "$1" "$2"); do
    if [ "$3" = pairs ]; then ./build/pairs "$seed" "$folder"; else ./build/generate "$seed" "$3" ${4:+"$4"}; fi
done | sed -n 's/^# reached //p' | awk -F': ' '
    !($1 in sum) { order[++count] = $1 }
    $1 ~ /^most/ { if ($2 > sum[$1]) sum[$1] = $2 }
    $1 !~ /^most/ { sum[$1] += $2 }
    $2 > 0 { scripts[$1]++ }
    END { for (i = 1; i <= count; i++) printf "%8d %5d  %s\n", sum[order[i]], scripts[order[i]], order[i] }'

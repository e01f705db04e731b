#!/bin/sh
# Compares another program `differ` with build/differ: differs.sh PROGRAM [FIRST_SEED LAST_SEED], where PROGRAM is a command, or a command and its first words.
# For each seed both get the same row of calls with the same files. Standard output, and whether there is anything on standard error (where it is the usage
# line: its text), must agree at every call. Some pairs may give no processor line; some are called in the other order too, and must give the same lines with
# the sides exchanged. The last line is 'N passed, M failed', one for each seed.
second=$(dirname "$0")
. "$second/../tools/common.sh"
. "$second/sides.sh"
program=$1 first=${2:-1} last=${3:-100}
USAGE='usage: differ FIRST SECOND'

[ -n "$program" ] || give_up "usage: $me PROGRAM [FIRST_SEED LAST_SEED]"
{ need gcc gcc libc6-dev && need make make; } || give_up "no C compiler can be had"
run make -C "$second" build/differ build/pairs >"$work/make" 2>&1 || { cat "$work/make"; give_up "the second differ is not built"; }

# What differs after a call, or nothing.
difference() {
    cmp -s "$ours.out" "$theirs.out" || { echo "standard output"; return; }
    same_errors "$ours.out.errors" "$theirs.out.errors" "$USAGE" || echo "standard error"
}

# One line of a row of calls; after the first difference of a seed no more is tried.
call() { # FILE..
    [ -z "$differs" ] || return 0
    number=$((number + 1))
    which="call $number (differ $*)"
    for file; do
        shift
        set -- "$@" "$folder/$file"
    done
    answer "$second/build/differ" "$ours.out" "$@"
    answer "$program" "$theirs.out" "$@"
    differs=$(difference)
}

# The same; no processor line may come.
silent() { # FIRST SECOND
    call "$@"
    [ -n "$differs" ] || ! grep -q '^processor' "$ours.out" || differs="a processor line"
}

# What is printed with the sides exchanged; those lines that speak of one side stand at the end, the first one's before.
exchange() {
    awk '
        /^[0-9]/ { print $1, $3, $2; next }
        /^first: / { sub(/^first/, "second"); later = $0; next }
        /^second: / { sub(/^second/, "first") }
        /only in first$/ { sub(/first$/, "second"); print; next }
        /only in second$/ { sub(/second$/, "first") }
        { print }
        END { if (later != "") print later }'
}

# The files in the other order. The row has called them in this one before.
swapped() { # FIRST SECOND
    [ -z "$differs" ] || return 0
    exchange <"$ours.out" >"$ours.exchanged"
    call "$2" "$1"
    [ -n "$differs" ] || cmp -s "$ours.exchanged" "$ours.out" || differs="not as in the other order"
}

try() { # SEED
    folder=$work/$1/files ours=$work/$1/ours theirs=$work/$1/theirs number=0 differs=''
    mkdir -p "$folder"
    "$second/build/pairs" "$1" "$folder" >"$work/$1/calls" || return
    . "$work/$1/calls"
    done_with "$1" "$differs"
}

count_seeds "$first" "$last"

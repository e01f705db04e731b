#!/bin/sh
# Compares another program `site` with build/site: sites.sh PROGRAM [FIRST_SEED LAST_SEED], where PROGRAM is a command, or a command and its first words. For
# each seed both get a folder with the same file, or none, and the same row of calls. Standard output, whether there is anything on standard error (where it
# is the usage line: its text), the file that is left, and that no FILE.new is left by a write must agree at every call. The last line is 'N passed, M failed',
# one for each seed.
second=$(dirname "$0")
. "$second/../tools/common.sh"
. "$second/sides.sh"
program=$1 first=${2:-1} last=${3:-100}
USAGE='usage: site FILE [VERSION LINE DIVIDER [SITE [LABEL]] NAME PRIORITY W ADDRESS ..]'

[ -n "$program" ] || give_up "usage: $me PROGRAM [FIRST_SEED LAST_SEED]"
{ need gcc gcc libc6-dev && need make make; } || give_up "no C compiler can be had"
run make -C "$second" build/site build/calls >"$work/make" 2>&1 || { cat "$work/make"; give_up "the second site is not built"; }
site=$second/build/site

same_file() { # ONE OTHER: also if neither is there
    if [ -e "$1" ]; then cmp -s "$1" "$2"; else [ ! -e "$2" ]; fi
}

# What differs after a call, or nothing.
difference() {
    cmp -s "$ours.out" "$theirs.out" || { echo "standard output"; return; }
    same_errors "$ours.out.errors" "$theirs.out.errors" "$USAGE" || { echo "standard error"; return; }
    same_file "$ours/$file" "$theirs/$file" || { echo "the file left"; return; }
    if grep -q '^written' "$theirs.out" && [ -e "$theirs/$file.new" ]; then echo "a new file is left"; fi
}

# One line of a row of calls; after the first difference of a seed no more is tried.
call() { # [FILE WORD..]
    [ -z "$differs" ] || return 0
    number=$((number + 1)) file=${1:-S}
    which="call $number (site $*)"
    if [ $# -gt 0 ]; then
        shift
        answer "$site" "$ours.out" "$ours/$file" "$@"
        answer "$program" "$theirs.out" "$theirs/$file" "$@"
    else
        answer "$site" "$ours.out"
        answer "$program" "$theirs.out"
    fi
    differs=$(difference)
}

try() { # SEED
    ours=$work/$1/ours theirs=$work/$1/theirs number=0 differs=''
    mkdir -p "$ours" "$theirs"
    "$second/build/calls" "$1" "$ours" >"$work/$1/calls" || return
    cp "$ours"/* "$theirs" 2>/dev/null
    . "$work/$1/calls"
    done_with "$1" "$differs"
}

count_seeds "$first" "$last"

#!/bin/sh
# Builds a program once for each slip and lets it answer what is generated, seeds in order, until what it prints differs from what the unchanged program
# prints. slips.sh: the script program, the slips in slips/ and scripts; slips.sh pairs: the program `differ`, the slips in differ-slips/ and pairs of dumps.
# Prints the slip's name, the seed and the number of orders or calls up to the first different line; a slip that is not found is a failure. The last line is
# 'N passed, M failed'.
cd "$(dirname "$0")" || exit 2
. ../tools/common.sh
ORDERS=1000   # in each script
what=${1:-scripts}
case $what in # seeds: at most, for each slip
scripts) slips=slips sources=print-script-sources unit=orders seeds=100 ;;
pairs) slips=differ-slips sources=print-differ-sources unit=calls seeds=50 ;;
*) give_up "usage: $me [pairs]" ;;
esac

{ need gcc gcc libc6-dev && need make make; } || give_up "no C compiler can be had"
run make all >"$work/make" 2>&1 || { cat "$work/make"; give_up "the second kernel is not built"; }
sources=$(make -s "$sources")
mkdir "$work/objects" "$work/samples" "$work/found"
compile() { gcc -std=c11 -O2 -Wall -Wextra -I . -c -o "$2" "$1"; } # SOURCE OBJECT
object() { compile "$1" "$work/objects/${1%.c}.o"; }

# ---- scripts
# sample_scripts SEED: makes the script and what the unchanged program prints, if no lane has made them yet.
sample_scripts() {
    [ ! -f "$work/samples/$1" ] || return 0
    mine=$(mktemp -d)
    ./build/generate "$1" "$ORDERS" >"$mine/script"
    ./build/second "$mine/script" >"$mine/out"
    mv "$mine/out" "$work/samples/$1.out"
    mv "$mine/script" "$work/samples/$1"
    rm -rf "$mine"
}

answers_scripts() { timeout --foreground 20 "$1" "$2" 2>/dev/null; } # PROGRAM SCRIPT

# The orders before this script, and the shortest beginning of it that shows the difference, by halving.
until_scripts() { # PROGRAM SEED
    low=0 high=$(wc -l <"$work/samples/$2")
    while [ $((high - low)) -gt 1 ]; do
        middle=$(((low + high) / 2))
        head -n "$middle" "$work/samples/$2" >"$1.begin"
        ./build/second "$1.begin" >"$1.expected"
        if differs "$1" "$1.begin" "$1.expected"; then high=$middle; else low=$middle; fi
    done
    echo $((($2 - 1) * ORDERS + high))
}

# ---- pairs
# The same for a row of calls. Two lanes may make the same files, each in a folder of its own.
sample_pairs() { # SEED
    [ ! -f "$work/samples/$1" ] || return 0
    mine=$(mktemp -d)
    { echo "folder=$mine" && ./build/pairs "$1" "$mine"; } >"$mine.calls"
    answers_pairs ./build/differ "$mine.calls" >"$mine.out"
    mv "$mine.out" "$work/samples/$1.out"
    mv "$mine.calls" "$work/samples/$1"
}

answers_pairs() { # PROGRAM ROW
    answers_program=$1 number=0
    . "$2"
}
call() { # FILE..
    number=$((number + 1))
    echo "call $number"
    for file; do
        shift
        set -- "$@" "$folder/$file"
    done
    timeout --foreground 20 "$answers_program" "$@" 2>/dev/null
}
silent() { call "$@"; }
swapped() { call "$2" "$1"; }

# The calls before this row, and those of it up to the first different line.
until_pairs() { # PROGRAM SEED
    line=$(cmp "$1.out" "$work/samples/$2.out" 2>&1 | sed -n 's/.*line \([0-9]*\).*/\1/p')
    {
        for earlier in $(seq 1 $(($2 - 1))); do cat "$work/samples/$earlier.out"; done
        head -n "$line" "$work/samples/$2.out"
    } | grep -c '^call '
}

# ---- both
# Changes one file as the slip says and builds; fails if the slip changes nothing.
build_slip() { # SLIP FOLDER
    file=$(sed -n 's/^# file: //p' "$1")
    mkdir "$2"
    cp "$work"/objects/*.o "$2"
    sed -f "$1" "$file" >"$2/$file"
    if cmp -s "$file" "$2/$file"; then
        echo "changes nothing"
        return 1
    fi
    compile "$2/$file" "$2/${file%.c}.o" && gcc -o "$2/program" "$2"/*.o
}

differs() { # PROGRAM SAMPLE EXPECTED
    "answers_$what" "$1" "$2" >"$1.out"
    ! cmp -s "$1.out" "$3"
}

try() { # SLIP
    name=$(basename "$1" .sed)
    folder_of_slip=$work/$name
    if says=$(build_slip "$1" "$folder_of_slip" 2>&1); then
        says="not found in $seeds seeds"
        for seed in $(seq 1 "$seeds"); do
            "sample_$what" "$seed"
            if differs "$folder_of_slip/program" "$work/samples/$seed" "$work/samples/$seed.out"; then
                says=$(printf '%5d %8d' "$seed" "$("until_$what" "$folder_of_slip/program" "$seed")")
                : >"$work/found/$name"
                break
            fi
        done
    fi
    printf '%-30s %s\n' "$name" "$says" >"$work/$name.says"
    rm -rf "$folder_of_slip"
}

# shellcheck disable=SC2086
each object $sources
each try "$slips"/*.sed
printf '%-30s %5s %8s\n' slip seed "$unit"
for slip in "$slips"/*.sed; do
    name=$(basename "$slip" .sed)
    cat "$work/$name.says"
    if [ -f "$work/found/$name" ]; then pass; else fail; fi
done
verdict

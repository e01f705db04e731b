# For sites.sh and differs.sh, which source it after common.sh: calls of two programs side by side, ours and another one, which is a command, or a command
# and its first words.

# The word is a command and its first words, so it is taken apart at its blanks.
# shellcheck disable=SC2086
answer() { # COMMAND OUT WORD..
    answer_command=$1 answer_out=$2
    shift 2
    timeout --foreground 20 $answer_command "$@" >"$answer_out" 2>"$answer_out.errors" </dev/null
}

# Whether there is anything on standard error; where it is the usage line, its text too.
same_errors() { # OURS THEIRS USAGE
    if [ "$(cat "$1")" = "$3" ]; then
        cmp -s "$1" "$2"
    elif [ -s "$1" ]; then
        [ -s "$2" ]
    else
        [ ! -s "$2" ]
    fi
}

# done_with SEED DIFFERS: notes that nothing differed, or says what did, and removes the folder of the seed. `ours`, `theirs` and `which` are of the last call.
done_with() {
    if [ -z "$2" ]; then
        : >"$work/$1.passed"
    else
        {
            echo "seed $1, $which: $2"
            diff "$ours.out" "$theirs.out" | head -n 4
            head -n 2 "$theirs.out.errors"
        } >"$work/$1.says"
    fi
    rm -rf "${work:?}/$1"
}

# count_seeds FIRST LAST: tries each, and counts those that passed.
count_seeds() {
    # shellcheck disable=SC2046
    each try $(seq "$1" "$2")
    for seed in $(seq "$1" "$2"); do
        [ ! -f "$work/$seed.says" ] || cat "$work/$seed.says"
        if [ -f "$work/$seed.passed" ]; then pass; else fail; fi
    done
    verdict
}

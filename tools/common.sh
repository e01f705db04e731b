# For the commands at the root, which source it: what they make on the way goes when they go, a signal ends all that they started, they take turns in a
# checkout, and they count what passed.
me=${0##*/}
say() { printf '%s: %s\n' "$me" "$*" >&2; }

# ---- what is made on the way
# One folder for it all, also for what rt makes on the way. rt runs programs as nobody, who must be able to pass through.
work=$(mktemp -d) || exit 1
chmod 711 "$work"
TMPDIR=$work
export TMPDIR
trap 'rm -rf "$work"' EXIT
trap 'end_all 129' HUP
trap 'end_all 130' INT
trap 'end_all 143' TERM

# run COMMAND ARGUMENT..: the command alone, which reads what the shell reads. A shell hears a signal while it waits for what runs beside it, and not while
# it runs a command itself.
if (: <&0) 2>/dev/null; then exec 3<&0; else exec 3</dev/null; fi
run() {
    "$@" <&3 &
    wait $!
}

# started_by PID: the processes that it started, and those that they started.
started_by() {
    cat /proc/[0-9]*/status 2>/dev/null | awk -v top="$1" '
        $1 == "Pid:" { pid = $2 }
        $1 == "PPid:" { up[pid] = $2 }
        END {
            for (pid in up) {
                for (p = up[pid]; p in up && p != top; p = up[p]) { }
                if (p == top) print pid
            }
        }'
}

lives() { grep -q '^State:[[:space:]]*[^ZX]' "/proc/$1/status" 2>/dev/null; }

# end_all STATUS: ends what was started, then the command. Each process is halted before one looks for those that it started, so that none gets away.
end_all() {
    trap '' HUP INT TERM
    halted='' more=yes
    while [ -n "$more" ]; do
        more=''
        for pid in $(started_by $$); do
            case " $halted " in *" $pid "*) continue ;; esac
            if kill -STOP "$pid" 2>/dev/null; then more=yes halted="$halted $pid"; fi
        done
    done
    for pid in $halted; do kill -TERM "$pid" && kill -CONT "$pid"; done 2>/dev/null
    # some have folders of their own to remove; who is not done in five seconds is not asked again
    tries=50
    for pid in $halted; do
        while [ "$tries" -gt 0 ] && lives "$pid"; do tries=$((tries - 1)) && sleep 0.1; done
        ! lives "$pid" || kill -KILL "$pid"
    done 2>/dev/null
    exit "$1"
}

# ---- many at a time
# One for each processor, as far as memory goes: a proof takes up to 2 GB. RT_JOBS, which rt knows too, says another number.
lanes=${RT_JOBS:-$(awk -v n="$(nproc)" '/^MemAvailable:/ { m = int($2 / 2097152) } END { n = m < n ? m : n; print n < 1 ? 1 : n }' /proc/meminfo)}
case $lanes in '' | *[!0-9]* | 0) say "RT_JOBS is a number, 1 or more"; exit 2 ;; esac

# each COMMAND ITEM..: runs the command on every item, in lanes; a lane that is free takes the next item. In it, `lane` is the number of its lane.
each() {
    each_command=$1
    shift
    rm -rf "$work/taken"
    mkdir "$work/taken"
    lane=0
    while [ "$lane" -lt "$lanes" ] && [ "$lane" -lt $# ]; do
        (
            turn=0
            for item; do
                turn=$((turn + 1))
                ! mkdir "$work/taken/$turn" 2>/dev/null || "$each_command" "$item"
            done
        ) &
        lane=$((lane + 1))
    done
    wait
}

# since SECONDS: the time from then until now, for a person.
since() { printf '%d:%02d min' $((($(date +%s) - $1) / 60)) $((($(date +%s) - $1) % 60)); }

# ---- one checkout
# lock -x: what is built is this command's alone from here on, to build it anew; lock -s: it is shared with those that run it. Who comes later waits, and is
# told for whom. The system gives the lock up with the last process that has it; a command that another one runs has the other one's.
lock() {
    lock_now "$1" && return
    holder=$(cat "$here/build/lock")
    say "waits for ${holder:-a program that still runs}"
    run flock "$1" 9 || exit 1
    sign "$1"
}

# lock_now HOW: the same, if it can be had at once.
lock_now() {
    case ${WIK_LOCK:-}$1 in
    '-x-s' | '-x-x' | '-s-s') return ;;
    '-s-x') say "a source file was changed meanwhile; start again"; exit 1 ;;
    esac
    mkdir -p "$here/build" || exit 1
    [ -n "$locked" ] || exec 9>>"$here/build/lock"
    locked=yes
    flock -n "$1" 9 && sign "$1"
}
locked=''

# sign HOW: who has the lock alone.
sign() {
    case $1 in
    -x) echo "./$me, process $$, which began at $(date +%H:%M:%S)" >"$here/build/lock" ;;
    -s) : >"$here/build/lock" ;;
    esac
}

# lock_all HOW: the lock for what this command runs, too.
lock_all() {
    lock "$1"
    WIK_LOCK=${WIK_LOCK:-$1}
    export WIK_LOCK
}

# ---- the count
passed=0 failed=0
pass() { passed=$((passed + 1)); }
fail() { failed=$((failed + 1)); }

# The last line of every command that counts, and its exit status. Where nothing was tried, that is a failure.
verdict() {
    if [ $((passed + failed)) -eq 0 ]; then
        say "nothing was tried"
        fail
    fi
    echo "$passed passed, $failed failed"
    [ "$failed" -eq 0 ]
}

# give_up WHY: ends a command that counts, where it cannot go on.
give_up() {
    echo "$me: $*"
    fail
    verdict
    exit 1
}

# add FILE STATUS: adds the last line of what a command printed to the count. Where there is none, where it counts nothing, and where the command failed
# and its line does not say so, that failed too.
add() {
    line=$(grep -E '^[0-9]+ passed, [0-9]+ failed$' "$1" | tail -n 1)
    line=${line:-0 passed, 0 failed}
    p=${line%% *} f=${line#* passed, } f=${f%% *}
    if [ "$f" -eq 0 ] && { [ "$p" -eq 0 ] || [ "$2" -ne 0 ]; }; then f=1; fi
    passed=$((passed + p)) failed=$((failed + f))
}

# agree ONE OTHER ERRORS ELSE: whether two files are the same and not empty, and the third is empty; if not, the line ELSE, what differs first, and the
# errors.
agree() {
    cmp -s "$1" "$2" && [ -s "$1" ] && [ ! -s "$3" ] && return
    echo "$4"
    diff "$1" "$2" | head -n 3
    head -n 3 "$3"
    return 1
}

# need COMMAND PACKAGE..: installs the packages where there is no such command. What that printed is shown if it failed.
need() {
    ! command -v "$1" >/dev/null || return 0
    needed=$1
    shift
    run sh -c 'apt-get update && apt-get install -y "$@"' sh "$@" >"$work/installed" 2>&1 && return
    cat "$work/installed" >&2
    say "there is no $needed here, and it could not be installed"
    return 1
}

# compile ARGUMENT..: C to a program.
compile() { need gcc gcc libc6-dev && run gcc -std=c11 -O2 "$@"; }

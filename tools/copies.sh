# For ./edits and ./slips, which source it after common.sh and prove.sh: copies of crates are checked by `rt check`, those of a lane in a repository of its own,
# over what the proofs of the crates themselves left in out/, so that only what was changed in a copy, and what stands on that, is checked again. With
# `whole` set a copy is checked from nothing.
whole=''

# have_proved [CRATE..]: these are proved as they are, or else all that crates.txt lists, as many at a time as there are lanes.
have_proved() {
    need_rt
    lock_all -x
    if [ $# -eq 0 ]; then
        run rt all check --jobs "$lanes" >"$work/proved" 2>&1 || { grep -vE ': ok$' "$work/proved" | tail -n 12 && give_up "without any edit not all is proved"; }
    fi
    for proved; do
        prove_alone() { cd "$here/crates/$proved" && rt check ${RT_JOBS:+--jobs "$RT_JOBS"}; }
        run prove_alone >"$work/proved" 2>&1 || { grep -E 'error|not proved|^logic=|^rt: ' "$work/proved" | tail -n 12 && give_up "without any edit this is not proved: $proved"; }
    done
}

# linked FROM TO: a copy of what rt made by links, or where there can be none a plain one. rt never writes into such a file, but replaces it.
linked() { cp -Rl "$1" "$2" 2>/dev/null || { rm -rf "$2" && cp -R "$1" "$2"; }; }

# kept FROM TO: the same of what a proof left, of which that holds for the checked modules alone.
kept() {
    linked "$1" "$2"
    find "$2" -type f ! -name '*.oantt' | while IFS= read -r kept_file; do cp -p "$kept_file" "$kept_file.own" && mv "$kept_file.own" "$kept_file"; done
}

# parts CRATE FOLDER: a copy of what is checked of a crate.
parts() {
    mkdir -p "$2"
    for checked_part in src specs proofs; do [ ! -d "$here/crates/$1/$checked_part" ] || cp -R "$here/crates/$1/$checked_part" "$2/$checked_part"; done
}

# bring CRATE ROOM: the crate stands there, as it is, over what its proof left; and what it stands on, built. What stood there of it is gone.
bring() {
    rm -rf "$2/crates/$1"
    parts "$1" "$2/crates/$1"
    mkdir -p "$2/crates/$1/out/incremental"
    [ -n "$whole" ] || { rmdir "$2/crates/$1/out/incremental" && kept "$here/crates/$1/out/incremental" "$2/crates/$1/out/incremental"; }
    for lower in $(below "$1"); do
        [ ! -d "$2/crates/$lower" ] || continue
        parts "$lower" "$2/crates/$lower"
        mkdir "$2/crates/$lower/out"
        linked "$here/crates/$lower/out/rlib" "$2/crates/$lower/out/rlib"
    done
    # another crate may stand there without those that it stands on
    list "$2" "$1"
}

# check CRATE ROOM LOG [COMMAND]: checks the crate of that room, or has rt do something else with it. What is said goes to the log.
check() {
    # rt begins with what was kept of the very same text, wherever that is: from nothing, a text must be new
    [ -z "$whole" ] || echo "// $$, $(date +%N)" >>"$2/crates/$1/src/$(cd "$2/crates/$1/src" && ls main.rt lib.rt 2>/dev/null)"
    (cd "$2/crates/$1" && rt "${4:-check}" --jobs 1) >"$3" 2>&1 </dev/null
}

# put FILE OLD NEW: the one place of the old text becomes the new one.
put() {
    [ -f "$1" ] || return 1
    OLD=$2 NEW=$3 awk '
        { text = text $0 "\n" }
        END {
            old = ENVIRON["OLD"]; at = index(text, old)
            if (old == "" || !at) exit 3
            rest = substr(text, at + length(old))
            if (index(rest, old)) exit 3
            printf "%s%s%s", substr(text, 1, at - 1), ENVIRON["NEW"], rest
        }' "$1" >"$1.put" && mv "$1.put" "$1"
}

# is_proved STATUS LOG, is_refused STATUS LOG: the verdict of a check, for or against; anything else is neither.
is_proved() { [ "$1" -eq 0 ] && grep -q '^logic=proved' "$2"; }
is_refused() { [ "$1" -eq 1 ] && grep -q '^logic=not-proved' "$2"; }

# places LOG: what a check does not take, each with its place.
places() { grep -E '^(note: )?[^ :]+:[0-9]+:[0-9]+: ' "$1" | if grep ': error' "$1" >/dev/null; then grep -E '^note: |: error'; else cat; fi; }

# unread LOG FILE..: the first place where the text itself of the crate, or of these files of it, is not understood, which refuses nothing that it says.
unread() {
    unread_log=$1
    shift
    { sed -nE 's/^(\.\/)?((src|specs)\/[^ :]+:[0-9]+:[0-9]+: error: )/\2/p' "$unread_log"
    for unread_file; do grep -F "$unread_file:" "$unread_log" | grep -E '^[^ ]+:[0-9]+:[0-9]+: error: '; done; } |
        awk '{
            said = $0; sub(/^[^ ]+: error: /, "", said)
            if (said ~ /^[0-9]+ declarations? that depends? on /) next
            named = said ~ /^`[^`]*`: /; gsub(/`[^`]*`/, "", said)
            if (!named || said ~ /is not in scope|has no field|is no name|operand is missing|expected the end|cannot continue/) { print; exit }
        }'
}

# names_only: of places, whether all are of proofs that name what is not there any more.
names_only() { ! grep -qvE '^(note: )?(\./)?proofs/.*(has no field|is not in scope|has no `|was not admitted)'; }

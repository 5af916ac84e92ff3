# progress.sh: shows how far a proof is. Sourced, never run, by a script that has set `root`, the repository's folder.
#     proving CRATE LOG COMMAND..      runs a command of rt that proves CRATE and all that it stands on, in CRATE's folder. What it says goes
#                                      to LOG, and its exit status is handed on. A signal that ends us ends it too.
#     stands_on CRATE                  it and all that it stands on, by crates.txt
#     what_failed LOG                  the lines of LOG that say what failed and where
#     newer_than FILE                  whether a file of the crates is newer than FILE; what rt keeps in crates/*/out counts for nothing
# What is shown goes to standard error: on a terminal one line, written over; elsewhere a line for each crate as it is done. In the end how long
# it took. Where every crate was proved before, nothing is shown.
# shellcheck shell=bash

# The functions that it calls see its variables.
proving() {
    local name=$1 log=$2 began=$SECONDS signal child status on_terminal='' shown=''
    local crates at='' tried=0
    local -A ended=()
    shift 2
    [ ! -t 2 ] || on_terminal=yes
    mapfile -t crates < <(stands_on "$name")
    : >"$log"
    # in a session of its own: so it can be ended with all that it started
    # shellcheck disable=SC2154
    (cd "$root/crates/$name" && exec setsid "$@") </dev/null >"$log" 2>&1 &
    child=$!
    # shellcheck disable=SC2064
    for signal in INT TERM HUP; do trap "interrupted $signal" "$signal"; done
    while kill -0 "$child" 2>/dev/null; do
        sleep 0.5
        look
        [ -z "$on_terminal" ] || [ -z "$at" ] ||
            over "proving $((${#ended[@]} + 1)) of ${#crates[@]}: $at, $(so_far) so far"
    done
    wait "$child"
    status=$?
    trap - INT TERM HUP
    look
    [ -z "$shown" ] || over
    [ "$status" -ne 0 ] || [ "$tried" -eq 0 ] || summary >&2
    return "$status"
}

stands_on() {
    awk -v crate="$1" -F : '
        function visit(name,    i, n, below) {
            if (!(name in list) || seen[name]++) return
            n = split(list[name], below, " ")
            for (i = 1; i <= n; i++) visit(below[i])
            print name
        }
        { sub(/#.*/, "") }
        NF > 1 { sub(/[ \t].*/, "", $1); list[$1] = $2 }
        END { visit(crate) }' "$root/crates.txt"
}

# look: which crates were proved in this run, and which is at work. Of each that rt proves anew it says `rt: chose --jobs N for CRATE` at its start
# and `crate CRATE: modules ..` at its end; of one that it proved before it says nothing.
look() {
    local word crate
    at=
    while read -r word crate; do
        case $word in
        began) at=$crate ;;
        done) is_done "$crate" ;;
        esac
    done < <(sed -nE -e 's/^rt: chose --jobs [0-9]+ for ([A-Za-z0-9_]+)$/began \1/p' -e 's/^crate ([A-Za-z0-9_]+): modules .*/done \1/p' "$log")
    [ -z "$at" ] || [ -z "${ended[$at]-}" ] || at=
}

# is_done CRATE: notes it, the first time
is_done() {
    [ -z "${ended[$1]-}" ] || return 0
    ended[$1]=yes
    tried=$((tried + 1))
    [ -n "$on_terminal" ] || printf '%s of %s: %s, %s so far\n' "${#ended[@]}" "${#crates[@]}" "$1" "$(so_far)" >&2
}

# over [WORDS..]: writes them over the terminal's line
over() {
    local line=$*
    shown=yes
    printf '\r%s\033[K' "${line:0:${COLUMNS:-80}-1}" >&2
}

so_far() {
    local seconds=$((SECONDS - began))
    [ "$seconds" -lt 60 ] || printf '%s min ' $((seconds / 60))
    printf '%s s' $((seconds % 60))
}

summary() {
    local before=', the others before'
    [ "$tried" -lt "${#crates[@]}" ] || before=
    printf '%s of %s crates proved in %s%s\n' "$tried" "${#crates[@]}" "$(so_far)" "$before"
}

what_failed() {
    grep -aE ': error|^error|^fn .*: not proved|^rt: ' "$1" | grep -avE '^rt: (chose --jobs|[^ ]+ begins with )' |
        sed -E 's/^(.{300}).*/\1 .../' | head -n 15 | grep -a '' || tail -n 15 "$1"
}

newer_than() {
    local at files=("$root/crates.txt")
    for at in "$root"/crates/*/*; do [[ $at == */out ]] || files+=("$at"); done
    [ -n "$(find "${files[@]}" -type f -newer "$1" -print -quit)" ]
}

interrupted() {
    kill -- "-$child" 2>/dev/null || kill "$child" 2>/dev/null
    [ -z "$shown" ] || echo >&2
    trap - "$1"
    kill "-$1" "$BASHPID"
}

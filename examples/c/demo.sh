#!/usr/bin/env bash
# One server and eight terminals on the loopback. Each terminal makes edits at once over a network that loses, repeats and reorders packets;
# terminal 8 is killed in the middle and goes on from its stored end. When all is quiet, the nine lists are printed. Status 1 if they differ.
#
#     demo.sh FOLDER [SEED [PERCENT [EDITS]]]
#
# FOLDER has the two programs. Every process ends by itself after DEADLINE seconds (60), and this script ends what is left.
set -euo pipefail
programs=$1 seed=${2:-1} loss=${3:-15} edits=${4:-40} deadline=${DEADLINE:-60}

work=$(mktemp -d)
touch "$work/err"
trap '{ kill -9 $(jobs -p); wait; } 2> /dev/null || true; rm -rf "$work"' EXIT

fail() {
    echo "demo: $*" >&2
    cat "$work/err" >&2
    exit 1
}

alive() {
    local pid
    for pid in "$server" "${pids[@]}"; do
        kill -0 "$pid" 2> /dev/null || return 1
    done
}

# Waits until a file has a line that begins so. Every process has to be alive meanwhile.
await() { # LINE FILE
    until grep -qs "^$1" "$work/$2"; do
        alive || fail "a process ended before its time"
        [ "$SECONDS" -lt "$deadline" ] || fail "no '$1' from $2 after $deadline seconds"
        sleep 0.05
    done
}

# Starts the terminal of a line.
terminal() { # LINE
    "$programs/terminal" -p "$port" -l "$1" -e "$edits" -r "$((seed * 100 + $1))" -x "$loss" -t "$deadline" "${@:2}" \
        > "$work/$1" 2>> "$work/err" &
    pids[$1]=$!
}

# Ends a process and waits for it: it prints its list and has status 0.
finish() { # PID FILE
    kill "$1" 2> /dev/null || true
    wait "$1" || fail "$2 failed"
}

"$programs/server" -r "$seed" -x "$loss" -t "$deadline" > "$work/server" 2>> "$work/err" &
server=$!
pids=()
await port server
port=$(sed -n 's/^port //p' "$work/server")

mkdir "$work/end8"
for line in 1 2 3 4 5 6 7 8; do
    terminal "$line" -v $([ "$line" != 8 ] || echo "-d $work/end8")
done
sleep 0.2
alive || fail "a process ended before its time"
{ kill -9 "${pids[8]}" && wait "${pids[8]}"; } 2> /dev/null || true
terminal 8 -v -d "$work/end8"

# Every edit is made and acknowledged, so the server has them all. It ends when every bay has them all too; then the bays may end.
for line in 1 2 3 4 5 6 7 8; do
    await 'done' "$line"
done
finish "$server" server
for line in 1 2 3 4 5 6 7 8; do
    finish "${pids[$line]}" "terminal $line"
done

# The lists with the origins of their items are compared, and printed without.
differ=0
for end in server 1 2 3 4 5 6 7 8; do
    grep '^list' "$work/$end" > "$work/list" || fail "$end printed no list"
    cmp -s "$work/list" <(grep '^list' "$work/server") || differ=1
    printf '%-6s %s\n' "$end" "$(sed 's/^list *//; s/@[0-9.]*//g' "$work/list")"
done
cat "$work"/? "$work/server" | awk -v seed="$seed" '
    /^moved/ { moved++ }
    /^count/ { for (i = 2; i < NF; i += 2) { if (!($i in sum)) order[++kinds] = $i; sum[$i] += $(i + 1) } }
    END {
        printf "seed %s: packets", seed
        for (i = 1; i <= kinds; i++) printf "%s %s %d", (i > 1 ? "," : ""), order[i], sum[order[i]]
        printf "; edits that landed elsewhere %d\n", moved
    }'
[ "$differ" = 0 ] || fail "the lists differ"
[ ! -s "$work/err" ] || fail "something was logged"
echo "nine lists alike, origins too ($SECONDS s)"

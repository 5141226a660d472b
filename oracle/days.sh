#!/bin/sh
# days.sh BINARY SEED_FROM SEED_TO N [panel]
# Runs BINARY (script on standard input, lines on standard output) on the scripts `oracle day SEED N [panel]`, boats that
# come and go, and holds its lines to what must be so after each call (`oracle held`, README.md). With the word panel,
# BINARY is `panel`, otherwise `drive`.
# ORACLE_BUILD: the folder of the oracle (default target/oracle below the current folder). LIMIT: seconds for each run of
# BINARY (default 60). Scripts that failed stay in ORACLE_BUILD/failed.
set -u
[ $# -ge 4 ] || { echo "days.sh BINARY SEED_FROM SEED_TO N [panel]" >&2; exit 2; }
binary=$1 seed=$2 last=$3 steps=$4
shift 4
build=${ORACLE_BUILD:-target/oracle}
oracle=$build/oracle
keep=$build/failed
dir=$(mktemp -d "$build/days.XXXXXX")
trap 'rm -rf "$dir"' EXIT
days=0 failed=0
: >"$dir/held"
while [ "$seed" -le "$last" ]; do
    "$oracle" day "$seed" "$steps" "$@" >"$dir/script" || exit 2
    timeout "${LIMIT:-60}" "$binary" <"$dir/script" >"$dir/answers"
    rc=$?
    days=$((days + 1))
    if "$oracle" held "$dir/script" "$dir/answers" >"$dir/verdict" && [ $rc -eq 0 ]; then
        cat "$dir/verdict" >>"$dir/held"
    else
        failed=$((failed + 1))
        mkdir -p "$keep"
        cp "$dir/script" "$keep/day$seed.script"
        echo "day $seed (exit code $rc, script $keep/day$seed.script):"
        cat "$dir/verdict"
    fi
    seed=$((seed + 1))
done
# The two lines of each day, added up.
awk -v days=$days -v broken=$failed '
    / refused, / { refused += $1; relays += $4; if ($11 + 0 > silent) silent = $11 + 0; messages += $12; zeros += $14 }
    / calls, / { calls += $1; off += $3; on += $5; if ($11 + 0 > most) most = $11 + 0 }
    END {
        printf "  %d sign-offs refused, %d boats lost their relay, most silent %d; ", refused, relays, silent
        printf "%d messages, %d of number 0 of a slot'\''s later holder\n", messages, zeros
        printf "  %d days, %d calls, %d sign-offs, %d admissions, most boats at once %d; %d broken\n", days, calls, off, on, most, broken
    }' "$dir/held"
[ $failed -eq 0 ] && [ $days -gt 0 ]

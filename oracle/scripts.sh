#!/bin/sh
# scripts.sh BINARY SEED_FROM SEED_TO N [OPTION..]
# Runs BINARY (script on standard input, lines on standard output) on the scripts `oracle gen SEED N OPTION..` and
# compares its lines with the oracle's. The options are those of README.md: with the word tape or outbox, BINARY is that
# program, otherwise it is `drive`.
# ORACLE_BUILD: the folder of the oracle (default target/oracle below the current folder). LIMIT: seconds for each run of
# BINARY (default 60). Scripts that failed stay in ORACLE_BUILD/failed; `oracle drive -p` and `oracle words` help there.
set -u
[ $# -ge 4 ] || { echo "scripts.sh BINARY SEED_FROM SEED_TO N [OPTION..]" >&2; exit 2; }
binary=$1 seed=$2 last=$3 steps=$4
shift 4
build=${ORACLE_BUILD:-target/oracle}
oracle=$build/oracle
keep=$build/failed
dir=$(mktemp -d "$build/scripts.XXXXXX")
trap 'rm -rf "$dir"' EXIT
passed=0 failed=0 calls=0 none=0
while [ "$seed" -le "$last" ]; do
    # A seed that the generator gives no script for is passed over and counted (README.md).
    if ! "$oracle" gen "$seed" "$steps" "$@" >"$dir/script" 2>/dev/null; then
        none=$((none + 1))
        seed=$((seed + 1))
        continue
    fi
    timeout "${LIMIT:-60}" "$binary" <"$dir/script" >"$dir/answers"
    rc=$?
    if "$oracle" compare "$dir/script" "$dir/answers" "$@" >"$dir/verdict" && [ $rc -eq 0 ]; then
        passed=$((passed + 1))
        count=$(tail -n 1 "$dir/verdict")
        calls=$((calls + ${count% calls}))
        [ "$(wc -l <"$dir/verdict")" -gt 1 ] && { echo "seed $seed:"; cat "$dir/verdict"; }
    else
        failed=$((failed + 1))
        mkdir -p "$keep"
        cp "$dir/script" "$keep/$seed.script"
        echo "seed $seed differs (exit code $rc, script $keep/$seed.script):"
        cat "$dir/verdict"
    fi
    seed=$((seed + 1))
done
echo "  $passed alike, $failed differ, $calls calls; $none seeds without a script"
[ $failed -eq 0 ] && [ $passed -gt 0 ]

#!/usr/bin/env bash
# Tries tests/counting.sh on steps of every sort, and ends in a tally of its own.
set -u
cd "$(dirname "$0")/.." || exit 2
right=0 wrong=0

sample() { # TALLY STEPS: the tally that the steps end in; the exit status is 0 only where it has no failure
    local said status
    said=$(bash -u -c ". tests/counting.sh
        good() { try good true; }
        bad() { try bad false; }
        gone() { exit 0; }
        $2
        finish" 2>&1)
    status=$?
    if [ "$(tail -n 1 <<<"$said")" = "$1" ] && [[ $status -eq 0 && $1 == *' 0 failed' || $status -ne 0 && $1 != *' 0 failed' ]]; then
        right=$((right + 1))
    else
        wrong=$((wrong + 1))
        echo "counting: $2: exit status $status, $said"
    fi
}

sample '1 passed, 0 failed' good
sample '1 passed, 1 failed' $'bad\ngood'
sample '3 passed, 0 failed' 'counted a echo 3 passed, 0 failed'
sample '4 passed, 2 failed' $'counted a echo 3 passed, 2 failed\ngood'
sample '3 passed, 1 failed' 'counted a bash -c "echo 3 passed, 0 failed; exit 1"'
sample '0 passed, 1 failed' 'counted a echo said'
sample '0 passed, 1 failed' 'counted a true'
sample '0 passed, 1 failed' 'counted a echo 0 passed, 0 failed'
sample '0 passed, 1 failed' 'counted a bash -c "kill \$\$"'
sample '1 passed, 1 failed' $'absent\ngood'
sample '3 passed, 0 failed' $'beside good good\ngood\njoin'
sample '2 passed, 1 failed' $'beside good bad\ngood\njoin'
sample '1 passed, 1 failed' $'beside absent good\njoin'
sample '1 passed, 1 failed' $'beside good gone\ngood\njoin'

echo "$right passed, $wrong failed"
[ "$wrong" -eq 0 ]

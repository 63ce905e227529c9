# shellcheck shell=bash disable=SC2030,SC2031
# Counting for ./test, which is in the tree's top folder when it sources this: every check is one passed or one failed.
began=$(date +%s)
work=$(mktemp -d) || exit 2
trap 'rm -rf "$work"' EXIT
peaks=$work/peaks
passed=0 failed=0
# A step that fails by itself, as one that is not there, was counted nowhere.
trap 'no "step $BASH_COMMAND"' ERR

ok() { passed=$((passed + 1)); echo "test: $1: ok"; }
no() { failed=$((failed + 1)); echo "test: $1: FAILED"; }

try() { # NAME COMMAND..: one check, its output shown only if it fails
    local name=$1
    shift
    if measured "$@" >"$work/said" 2>&1; then ok "$name"; else cat "$work/said"; no "$name"; fi
}

counted() { # NAME COMMAND..: a command whose last line is its own tally
    local name=$1 status
    shift
    measured "$@" 2>&1 | tee "$work/said"
    status=${PIPESTATUS[0]}
    add_tally "$name" "$status" "$(tail -n 1 "$work/said")"
}

add_tally() { # NAME STATUS LINE: a failed command counts as at least one failure, and so does a tally of nothing
    if [[ $3 =~ ^([0-9]+)\ passed,\ ([0-9]+)\ failed$ && $3 != '0 passed, 0 failed' ]]; then
        passed=$((passed + BASH_REMATCH[1])) failed=$((failed + BASH_REMATCH[2]))
        [ "$2" -eq 0 ] || [ "${BASH_REMATCH[2]}" -ne 0 ] || no "$1 (exit status $2)"
    else
        no "$1 (exit status $2, and no tally)"
    fi
}

measured() { python3 tests/measured.py "$peaks" "$@"; }

beside() { # STEPS..: run one after the other beside what comes next; join waits for them, tells what they said and adds their counts
    mkdir "$work/beside" || exit 2
    (
        work=$work/beside passed=0 failed=0
        for step in "$@"; do "$step" || no "step $step"; done
        echo "$passed $failed" >"$work/counts"
    ) >"$work/beside/log" 2>&1 &
}

join() {
    local counts
    wait
    cat "$work/beside/log"
    if read -r -a counts <"$work/beside/counts"; then
        passed=$((passed + counts[0])) failed=$((failed + counts[1]))
    else
        no 'steps beside'
    fi
}

finish() {
    local peak
    peak=$(sort -n "$peaks" 2>/dev/null | tail -n 1)
    echo "test: $(($(date +%s) - began)) s; the largest process took $((${peak:-0} / 1024)) MiB"
    echo "$passed passed, $failed failed"
    [ "$failed" -eq 0 ]
    exit
}

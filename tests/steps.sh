# shellcheck shell=bash disable=SC2154
# The steps of ./test, in its order, each followed by what it alone or it first uses. They count by tests/counting.sh.
archive=$PWD/crates/station/out/libstation.a
stationround=$PWD/crates/stationround/out/stationround
trial=$PWD/crates/trial/out/trial
rust_bin=$PWD/target/cargo/release
strict=(-Wall -Wextra -Werror)

tools() {
    need rt -
    need python3 python3
    need gcc gcc
    need g++ g++
    need cargo cargo
    [ "$failed" -eq 0 ] || finish
    rt version
}

need() { # COMMAND PACKAGE: there already, or installed from the system's packages
    command -v "$1" >/dev/null && return
    if [ "$2" != - ] && command -v apt-get >/dev/null; then
        { apt-get install -y -qq "$2" || { apt-get update -qq && apt-get install -y -qq "$2"; }; } >"$work/said" 2>&1
        command -v "$1" >/dev/null && return
    fi
    echo "test: $1 is missing"
    no "tool $1"
}

counting() { counted 'samples of steps' tests/counting_samples.sh; }

documents() {
    counted 'samples of definitions' python3 tests/audit.py --self-test
    counted 'audit' python3 tests/audit.py
    counted 'samples of refusals' python3 tests/refusals.py --self-test
    counted 'refusals' python3 tests/refusals.py
    try 'docs/EDITS.md' python3 tests/edits.py --check
    try 'the crates of docs/ARCHITECTURE.md' python3 tests/crate_table.py --check
}

proofs() { # every crate, its tests, edits, layout and program, with what rt says kept for must_fail_logs
    local before=$failed
    counted 'rt ci' rt ci
    cp "$work/said" "$work/ci"
    if [ "$failed" -ne "$before" ]; then
        echo 'test: not everything is proved, so nothing further is tried'
        finish
    fi
}

must_fail_logs() {
    counted 'samples of must-fail logs' python3 tests/must_fail_logs.py --self-test
    counted 'must-fail logs' python3 tests/must_fail_logs.py "$work/ci"
}

build_archive() {
    mkdir -p target
    try 'archive' python3 tests/archive.py
}

second_implementation() {
    local status tally
    cargo_in_rust test
    status=$?
    tally=$(sed -n 's/^test result: .* \([0-9]*\) passed; \([0-9]*\) failed.*/\1 \2/p' "$work/said" |
        awk '{ p += $1; f += $2 } END { printf "%d passed, %d failed", p, f }')
    [ "$status" -eq 0 ] || cat "$work/said"
    echo "test: the second implementation's own tests: $tally"
    add_tally "the second implementation's own tests" "$status" "$tally"
}

comparison() {
    compared compare 'comparison with the second implementation'
    compared compare 'comparison catches its mutations' --mutations
}

program_cases() {
    try 'large cases' python3 tests/large_cases.py "$work/cases"
    cases 'second implementation' "$rust_bin/second_stationround"
    cases stationround "$stationround"
}

cases() { # WHOSE PROGRAM: each case of tests/cases and of tests/large_cases.py
    local dir name
    for dir in tests/cases/*/ "$work"/cases/*/; do
        name="$1, case $(basename "$dir")"
        if "$2" <"$dir/stdin" >"$work/wrote" && cmp "$work/wrote" "$dir/stdout"; then ok "$name"; else no "$name"; fi
    done
}

programs() {
    compared streams 'stationround compared on drawn files' "$stationround"
    compared streams 'comparison of files catches its mutations' "$stationround" --mutations
    compared trials 'listing, writer and reader compared' "$trial"
    compared trials 'comparison of trials catches its mutations' "$trial" --mutations
}

hindsight() {
    compared hindsight 'what hindsight could have gained'
    compared hindsight 'the check of hindsight catches its faults' --mutations
}

compared() { # BIN NAME WORDS..: runs a comparison with the second implementation; its last line starts with its own name
    local bin=$1 name=$2
    if cargo_in_rust run --bin "$bin" -- "${@:3}" && tail -n 1 "$work/said" | grep "^$bin: "; then
        ok "$name"
    else
        cat "$work/said"
        no "$name"
    fi
}

cargo_in_rust() { # VERB WORDS..
    CARGO_TARGET_DIR=$PWD/target/cargo LIRVEDD_ARCHIVE=$archive \
        measured cargo "$1" --offline --release --manifest-path tests/rust/Cargo.toml "${@:2}" >"$work/said" 2>&1
}

mixing() { counted 'mixing of slots, weights and tickets' tests/mixing.sh; }

header() {
    echo '#include "lirvedd.h"' >"$work/header.c"
    cp "$work/header.c" "$work/header.cpp"
    try 'header in C11' gcc -std=c11 "${strict[@]}" -pedantic -Iinclude -fsyntax-only "$work/header.c"
    try 'header in C++17' g++ -std=c++17 "${strict[@]}" -pedantic -Iinclude -fsyntax-only "$work/header.cpp"
}

c_calls() {
    c_test station
    c_test rounds
    c_test third
    c_test keep examples/firmware/keep.c
    try 'example' env LIRVEDD_ARCHIVE="$archive" bash -o pipefail -c './run | diff - examples/firmware/expected.txt'
    try 'example in C++17 compiles' g++ -x c++ -std=c++17 "${strict[@]}" -pedantic -Iinclude examples/firmware/station.c \
        -x none "$archive" -o target/example_in_cpp
    try 'example in C++17' bash -o pipefail -c 'target/example_in_cpp | diff - examples/firmware/expected.txt'
    try 'pictures' docs/pictures/make --check
}

c_test() { # NAME FILES..: tests/c/NAME.c, with further files, against the archive
    try "C test $1 compiles" gcc -std=c11 "${strict[@]}" -O2 -Iinclude "tests/c/$1.c" "${@:2}" "$archive" -o "target/c_$1"
    [ ! -x "target/c_$1" ] || counted "C test $1" "target/c_$1"
}

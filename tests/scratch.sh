# shellcheck shell=bash
# Puts TMPDIR into memory where there is room, unless it is set. A check makes thousands of small files and removes them again; in a
# folder on a disk that takes a tenth of its time in a crate that uses no other, and a quarter in one that uses most.
takes_files() { # FOLDER: it has 4 GiB free, and a program that is put there runs
    local free probe status
    free=$(df -Pk "$1" 2>/dev/null | awk 'NR == 2 { print $4 }')
    [ "${free:-0}" -ge 4194304 ] || return
    probe=$(mktemp "$1/probe.XXXXXX" 2>/dev/null) || return
    cp "$(type -P true)" "$probe" 2>/dev/null && chmod +x "$probe" && "$probe" 2>/dev/null
    status=$?
    rm -f "$probe"
    return "$status"
}

if [ -z "${TMPDIR-}" ] && takes_files /dev/shm; then export TMPDIR=/dev/shm; fi

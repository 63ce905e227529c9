#!/bin/sh
# Counts the places of docs/DESIGN-PASS.md in crates/*/src; with --list it shows them. For another commit: git archive COMMIT | tar x -C DIR, and there.
cd "${PLACES_TOP:-$(dirname "$0")/..}" || exit 2

# places POINT WHAT PATTERN
places() {
    echo "$1 $2: $(grep -rnE -- "$3" crates/*/src | wc -l)"
    if [ "$list" ]; then grep -rnE -- "$3" crates/*/src | sed 's/^crates./    /'; fi
}

list=
if [ "${1-}" = --list ]; then list=yes; fi
places 1 'own enums' '^(pub )?enum '
places 1 'fields that say which state, beside values' '^    (pub )?(stopped|payload|good|over|leap): bool,$'
places 1 'numbers for kinds' '\b(kind|command|out|leap|what): u(8|32|64)\b'
places 1 'numbers for refusals' 'Refused\((u32|[0-9]+)\)|^ +return [0-9]+;'
places 1 'values that stand for none' '^(pub )?const (NO_DIGIT|BLANK|EMPTY)\b'
echo "2 twins: $(python3 tools/twins.py | tail -1)"
if [ "$list" ]; then python3 tools/twins.py --near | sed 's/^/    /'; fi
places 3 'loops but for' '^\s*(while|loop)\b'
places 3 'loops that are for' '^\s*for\b'
places 4 'minimum, maximum, difference, conversion by hand' \
    'fn (more|smaller|larger|lesser|least|less|less_one|one_if_less|cut|top_of|join[1248]|value|small|line_number|command_of|write[124])\('
echo "5 facts in three clauses or more: $(find crates/*/src -name '*.rt' -exec cat {} + | tr '\n' ' ' | grep -oE 'requires [a-z_]* ?\{[^}]*\}' \
    | sed 's/requires [a-z_]* \?{//; s/}$//' | tr -s ' ' | sed 's/ × /\n/g' | sed 's/^ *//; s/ *$//; s/^(\(.*\))$/\1/' | sort | uniq -c | awk '$1 > 2' | wc -l)"
if [ "$list" ]; then
    find crates/*/src -name '*.rt' -exec cat {} + | tr '\n' ' ' | grep -oE 'requires [a-z_]* ?\{[^}]*\}' \
        | sed 's/requires [a-z_]* \?{//; s/}$//' | tr -s ' ' | sed 's/ × /\n/g' | sed 's/^ *//; s/ *$//; s/^(\(.*\))$/\1/' | sort | uniq -c | sort -rn | awk '$1 > 2'
fi
places 5 'a table with its head' 'table: &(mut )?\[u8\], round: Round|^    round: Round,$'
places 6 'lengths beside a buffer' '\b(many|count|size|held|room): usize'
places 6 'arrays beside one another' '^    (ends|tops|lows|marks|keys|flags): &'
places 7 'a flag that says which step to run' '\b(asked|leaps?): bool'
echo "8 answers: $(find crates/*/proofs -name Answers.antt -exec grep -hE '^pub [^ ]+ : goal' {} + | wc -l)"
echo "8 lines of answers and invariants: $(find crates/*/proofs '(' -name Answers.antt -o -name Invariants.antt ')' -exec cat {} + | wc -l)"
echo "Kept: $(grep -rnE '// Kept: ' crates/*/src | wc -l)"

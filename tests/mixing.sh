#!/usr/bin/env bash
# Shows that a slot, a weight, a class and a ticket cannot stand in one another's place. The table below has each public function and constructor
# of the library that takes one. For each place of each, and each of the three wrong sorts, a number of that sort and the limit of that
# sort are passed there, and the compiler has to say 'mismatched-types' with the sort expected and the sort found; the same calls with
# nothing mixed must compile. What the sources have and the table has not fails too. The crates stand outside the tree, over copies of the
# sources, and `rt try` compiles them: it proves nothing, and nothing has to be proved before. Last line: 'N passed, M failed'.
set -u
cd "$(dirname "$0")/.." || exit 2
room=$(mktemp -d) || exit 2
trap 'rm -rf "$room"' EXIT
passed=0 failed=0

# One line each, with its whole path; <Sort> is a place where that sort is wanted, in the order of the parameters or fields.
# Parameters of the call are there to be passed on: table, bytes, round, keys, counts, ends, tops, lows.
signatures() {
    cat <<'EOF'
sorts::Round { slot: <Slot>, last: <Slot>, next: <Ticket>, used: 0, room: 1, sealed: 0 }
sorts::Round::new(<Slot>, 1)
checks::may_open(<Slot>)
checks::may_take(round, <Slot>, <Weight>, <Class>)
checks::may_mark(round, <Slot>)
replies::Out::Frame(<Ticket>)
replies::Out::KeptBlank(<Ticket>)
replies::Substitute::Row(<Ticket>)
replies::Substitute::Blank(<Slot>)
seen::Seen { ticket: <Ticket>, ahead: 0, weights: 0, plain: 0 }
row::judge::see_row(bytes, <Slot>, seen::Seen { ticket: Ticket(0), ahead: 0, weights: 0, plain: 0 })
seen::row_follows(<Ticket>, seen::Seen { ticket: Ticket(0), ahead: 0, weights: 0, plain: 0 }, 0)
seen::numbers_pass(seen::Seen { ticket: Ticket(0), ahead: 0, weights: 0, plain: 0 }, <Ticket>)
kinds::all_pass(bytes, 0, <Ticket>, seen::Seen { ticket: Ticket(0), ahead: 0, weights: 0, plain: 0 })
row::write::write_row(table, 16, <Ticket>, <Slot>, <Weight>, <Class>)
row::entry::Numbers { ticket: <Ticket>, due: <Slot>, weight: <Weight> }
row::write::write_shift(table, 0, <Slot>, <Weight>)
row::write::write_weight(table, 0, <Weight>)
row::write::write_kept(table, 0, <Slot>, <Weight>)
keys::rank_of(<Slot>, <Class>)
keys::key_by(<Weight>, 0, 0)
keys::key_of(<Weight>, <Slot>, <Class>, 0)
keys::canonical::order_key_of(<Slot>, <Weight>, <Class>, 0)
leaving::leave_out(keys, table, tops, <Slot>, buckets::Reach { free: 0, over: 0 })
lead::score_of(<Weight>, <Weight>)
lead::close_segment(ends, tops, lows, lead::Lead { count: 0, score: 0, key: 0, segment: 0, other: 0 }, <Slot>, 0, 0, 0)
lead::ends_here(<Slot>, 0, <Slot>)
segments::segments_of(keys, bytes, <Slot>, 0, ends, tops, lows)
whole::Whole::Kept { row: 0, first: <Slot>, mark: <Weight> }
chain::segment_by(ends, 0, <Slot>)
went::send_kept(table, round, 0, <Slot>, <Weight>, 0)
sub::Sub::Blank(<Slot>)
far::is_far(round, buckets::Reach { free: 0, over: 0 }, <Slot>)
every::mark_every(&(round::read::Sound { table: bytes, round }), counts, buckets::Reach { free: 0, over: 0 }, <Slot>)
marks::mark::mark_near(keys, bytes, <Slot>, <Slot>)
marks::substitute::substitute_near(keys, bytes, <Slot>, <Slot>)
opening::open_round(<Slot>, table)
taking::take_frame(<Slot>, <Weight>, <Class>, table)
marking::mark_of(<Slot>, bytes)
substituting::substitute_of(<Ticket>, bytes)
listing::Entry { ticket: <Ticket>, due: <Slot>, weight: <Weight> }
forms::Command::Open(<Slot>)
forms::Command::Take(<Slot>, <Weight>)
forms::Command::Classed(<Slot>, <Weight>, <Class>)
replying::write_ticket_in_room(<Ticket>, table)
replying::write_step_in_room(0, 0, <Ticket>, table)
saying::Accepted::Taken(<Ticket>)
EOF
}

ok() { passed=$((passed + 1)); echo "mixing: $1: ok"; }
no() { failed=$((failed + 1)); echo "mixing: $1: FAILED"; }

# A repository beside this one, with the crates' code and what it cites.
copy_crates() {
    local crate part
    for crate in crates/*/; do
        mkdir -p "$room/$crate" || return
        for part in src specs; do
            if [ -d "$crate$part" ]; then cp -R "$crate$part" "$room/$crate" || return; fi
        done
    done
    cp crates.txt "$room/crates.txt"
}

# The crates, a call to a line: mixing_nothing with all calls right, and mixing_1, mixing_2, .. with wrong ones, in each no more than the
# errors that the compiler tells of one crate. Of each wrong call a case: crate, line, the call's name, the place, the sort wanted there,
# the one given. rt try asks a library for a test.
write_crates() {
    signatures | awk -v crates="$room/crates" -v listed="$room/crates.txt" -v most=20 -v all="$(signatures | grep -oE '(^|[ (])[a-z]+::' | tr -d ' (:' | sort -u | tr '\n' ' ')" '
        function begin(crate) {
            system("mkdir -p " crates "/" crate "/src")
            print crate ": " all >>listed
            write_in(crate, "use sorts::{Class, Round, Slot, Ticket, Weight};")
            write_in(crate, "#[test] fn compiles() {}")
        }
        function write_in(crate, text) {
            lines[crate]++
            print text >(crates "/" crate "/src/lib.rt")
        }
        function function_of(crate, call) {
            write_in(crate, "pub fn call" lines[crate] "(table: &mut [u8], bytes: &[u8], round: Round, keys: &[u64], counts: &[u32], ends: &mut [u32], tops: &mut [u64], lows: &mut [u32]) { let _ = " call "; }")
        }
        function value(sort, as_limit) { return as_limit ? limit[sort] : sort "(1)" }
        function filled(place, given, as_limit,    i, text) {
            for (i = 1; i <= n; i++) text = text (i % 2 ? part[i] : value(i == place ? given : part[i], as_limit))
            return text
        }
        BEGIN {
            split("Slot Weight Ticket Class", sorts, " ")
            limit["Slot"] = "Round::LAST"; limit["Weight"] = "Round::WEIGHT"; limit["Ticket"] = "Round::TICKETS"; limit["Class"] = "Round::CLASS"
            begin("mixing_nothing")
        }
        {
            n = split($0, part, /[<>]/)
            name = part[1]
            sub(/[ (].*/, "", name)
            for (as_limit = 0; as_limit <= 1; as_limit++) {
                function_of("mixing_nothing", filled(0, "", as_limit))
                for (place = 2; place < n; place += 2)
                    for (s = 1; s <= 4; s++)
                        if (sorts[s] != part[place]) {
                            if (wrong++ % most == 0) begin(crate = "mixing_" ++made)
                            function_of(crate, filled(place, sorts[s], as_limit))
                            print crate, lines[crate], name, place / 2, part[place], sorts[s], value(sorts[s], as_limit)
                        }
            }
        }' >"$room/cases"
}

# What the compiler says of a crate of the room, in a file of the crate's name.
compile() { (cd "$room/crates/$1" && rt try --test) >"$room/$1" 2>&1; }

# A module that a crate keeps to itself: nothing of it is let out by name.
is_private() { grep -q "^mod $2;" "$1" && ! grep -q "^pub use $2::" "$1"; }

# 'CRATE NAME' and the sorts taken, in order, of each public function, struct and variant in the sources that takes one.
takers() {
    local crate file
    for crate in $(cd crates && echo *); do
        [ -f "crates/$crate/src/lib.rt" ] || continue
        for file in "crates/$crate"/src/*.rt; do
            is_private "crates/$crate/src/lib.rt" "$(basename "$file" .rt)" && continue
            awk -v crate="$crate" '
                function tell(name, text,    found) {
                    while (match(text, /[^A-Za-z0-9_](Slot|Weight|Ticket|Class)[^A-Za-z0-9_]/)) {
                        found = found " " substr(text, RSTART + 1, RLENGTH - 2)
                        text = substr(text, RSTART + RLENGTH - 1)
                    }
                    if (found) print crate, name found
                }
                function named(text) { sub(/^ *pub [a-z]+ /, "", text); sub(/[^A-Za-z0-9_].*/, "", text); return text }
                /^ *pub (fn|struct) / { name = named($0); whole = ""; inside = 1; struct = /pub struct/ }
                /^pub enum / { in_enum = 1; next }
                in_enum && /^}/ { in_enum = 0 }
                in_enum && /^    [A-Z]/ { variant = $1; sub(/[^A-Za-z0-9_].*/, "", variant); fields = "" }
                in_enum && variant { fields = fields $0 " " }
                in_enum && /^    [A-Z}].*,/ { tell(variant, fields); variant = "" }
                inside {
                    text = $0
                    sub(/\/\/.*/, "", text)
                    if (!whole) sub(/^ *pub [a-z]+ [A-Za-z0-9_]+/, "", text)
                    whole = whole text " "
                    if (struct ? /^}|;$/ : /->|\)$|[{]$/) {
                        sub(/->.*/, "", whole)
                        tell(name, whole)
                        inside = 0
                    }
                }' "$file"
        done
    done
}

# The same of the table.
listed() {
    signatures | awk '{
        crate = $0; sub(/::.*/, "", crate)
        name = $0; sub(/[ (].*/, "", name); sub(/.*::/, "", name)
        n = split($0, part, /[<>]/)
        text = crate " " name
        for (i = 2; i < n; i += 2) text = text " " part[i]
        print text
    }'
}

takers | sort >"$room/takers"
listed | sort >"$room/listed"
if diff "$room/takers" "$room/listed" >"$room/missed"; then
    ok 'the table has each public signature of the sources'
else
    no 'the table has each public signature of the sources (<), and no other (>)'
    cat "$room/missed"
fi

copy_crates || { echo 'mixing: the crates could not be copied'; echo "$passed passed, $((failed + 1)) failed"; exit 1; }
write_crates
if compile mixing_nothing; then
    ok 'each of the four in its own place is taken'
else
    no 'each of the four in its own place is taken'
    tail -n 20 "$room/mixing_nothing"
fi
export room
export -f compile
cut -d ' ' -f 1 "$room/cases" | uniq | xargs -P "$(nproc)" -I '{}' bash -c 'compile {}'
while read -r crate line name place wanted given value; do
    what="$name, place $place: $value where a $wanted is wanted does not compile"
    if grep -q "^src/lib.rt:$line:[0-9]*: error\[mismatched-types\]: expected \`$wanted\`, found \`$given\`" "$room/$crate"; then
        ok "$what"
    else
        no "$what"
        grep "^src/lib.rt:$line:" "$room/$crate" || tail -n 3 "$room/$crate"
    fi
done <"$room/cases"
echo "$passed passed, $failed failed"
[ "$failed" -eq 0 ]

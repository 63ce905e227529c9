#!/usr/bin/env python3
"""Says of each must-fail edit whether it was refused for a fact, as far as `rt` tells.

`rt ci` and `rt must-fail` print a line for each edit, with the first message of the prover that is not about a name that the edit took away.
They keep no other message. This script reads those lines and accepts one only where the edit was refused, and

  - not only because a proof file names what is not there any more, and not only by a limit of the prover: rt says both; and
  - the message shown is not of a text that does not parse, of a definition that is not to be opened any more, or of an equation that only
    does not fit its place.

It also holds the last line of `rt ci`, `rt: ok`, to the edits that are in the tree: as many refused, and none bad.

That something was not proved does not yet say that it is false, and of two terms that differ rt shows the first alone. That an edit changes
what the code means is for its author to see; CONTRIBUTING.md says how to read all that the prover says of one.

  must_fail_logs.py FILE         what `rt ci` printed: a line for each edit of the tree, then 'N passed, M failed'
  must_fail_logs.py FILE CRATE.. what `rt must-fail CRATE..` printed, or `rt ci CRATE..`: the edits of these crates alone
  must_fail_logs.py --self-test  tries the rules on samples of lines
"""
import re
import sys
from pathlib import Path

TOP = Path(__file__).resolve().parent.parent
REFUSED = 'refused, as it must be'
LINE = re.compile(r'^rt: must-fail (\S+)\.edit: (.*)$', re.M)
OK = re.compile(r'^rt: ok; .*?must-fail edits: (\d+) refused(?:, \d+ of them only by a limit)?(?:, (\d+) bad)?;', re.M)

# The edit broke the fit of a proof or of a file.
FIT = [
    (re.compile(r'only because a proof file names what the edit took away'), 'a proof names what is not there'),
    (re.compile(r'only by a limit of the prover'), 'the prover met a limit of its own'),
    (re.compile(r'has no `[^`]*` that can be named from here|has no `Goal-'), 'a name is not there'),
    (re.compile(r'has no field `'), 'a field is not there'),
    (re.compile(r'is not in scope'), 'a name is not in scope'),
    (re.compile(r'cannot be unfolded'), 'a definition cannot be unfolded'),
    (re.compile(r'cannot continue the declaration'), 'a file does not parse'),
    (re.compile(r'follows the signature of'), 'a clause has another name than its signature'),
    (re.compile(r'no `mod` line names this file'), 'a file is in no module'),
    (re.compile(r'was not admitted'), 'only what rests on a refused declaration'),
    (re.compile(r"`rw`: no occurrence"), 'an equation does not fit'),
    (re.compile(r'a trial run of this declaration was admitted'), 'only a trial run differs'),
]


def classify(said):
    """(accepted, reason) for what rt says of an edit."""
    if not said.startswith(REFUSED):
        return False, said
    fit = next((meaning for pattern, meaning in FIT if pattern.search(said)), None)
    if fit:
        return False, f'only the fit is broken: {fit}'
    _, found, message = said.partition(f'{REFUSED}: ')
    return (True, message) if found else (False, 'rt shows no message')


def edits(crates):
    """The edits of the tree, or of these crates, as crate/name."""
    found = sorted(TOP.glob('crates/*/must-fail/*.edit'))
    return [f'{path.parts[-3]}/{path.stem}' for path in found if not crates or path.parts[-3] in crates]


def judged(text, names):
    """(name, accepted, reason) for each edit, by the last line that tells of it."""
    said = dict(LINE.findall(text))
    for name in names:
        yield name, *(classify(said[name]) if name in said else (False, 'nothing is said of it'))


def wrong_count(text, many):
    """What is wrong with the line `rt: ok`, if anything is."""
    line = OK.search(text)
    if not line:
        return 'rt ci has no line `rt: ok` with its must-fail edits'
    if line[2] and int(line[2]) > 0:
        return f'{line[2]} edits are bad'
    return None if int(line[1]) == many else f'{line[1]} edits were refused, and the tree has {many}'


def report(file, crates):
    text = Path(file).read_text(encoding='utf-8', errors='replace')
    names = edits(crates)
    passed = failed = 0
    for name, accepted, reason in judged(text, names):
        print(f'must-fail {name}: {"a fact" if accepted else "NOT A FACT"}: {reason[:160]}')
        passed, failed = passed + accepted, failed + (not accepted)
    if not crates:
        wrong = wrong_count(text, len(names))
        print(f'must-fail edits: {wrong or "as many refused as there are, and none bad"}')
        passed, failed = passed + (not wrong), failed + bool(wrong)
    print(f'{passed} passed, {failed} failed')
    return failed == 0


SAMPLES = [
    (True, 'not proved', 'refused, as it must be: note: src/lib.rt:43:1: it is not proved that what the function ensures holds when it returns (`returns`); the facts known'),
    (True, 'search', 'refused, as it must be: ./proofs/f/Answers.antt:15:13: error: `returns`: `search`: no proof of `reads.Post c`'),
    (True, 'two values', 'refused, as it must be: ./proofs/f/Answers.antt:14:31: error: `returns`: as printed, the two types differ only where one has `50` (expected), right af'),
    (True, 'computed', 'refused, as it must be: ./proofs/Rounds.antt:3:1: error: `fact`: expected type `played all ≡ all`, but this has type `played all ≡ played all`'),
    (False, 'names alone', 'refused, as it must be (only because a proof file names what the edit took away, so this says little of the contract: change a value and keep the names): ./proofs/f/Answers.antt:3:1: error: `returns`: `heavier` is not in scope'),
    (False, 'a limit', 'refused, as it must be (only by a limit of the prover, which gave no verdict, so this says less of the contract: choose a change that it refuses sooner): antt ran out of stack'),
    (False, 'does not parse', 'refused, as it must be: ./proofs/f/Answers.antt:10:18: error: `)` cannot continue the declaration here'),
    (False, 'kept shut', 'refused, as it must be: ./proofs/Laws.antt:10:18: error: `law`: `heavier` cannot be unfolded'),
    (False, 'no occurrence', "refused, as it must be: ./proofs/f/Answers.antt:9:5: error: `returns`: `rw`: no occurrence of the path's left endpoint in the goal"),
    (False, 'a trial run', 'refused, as it must be: ./proofs/Laws.antt:9:5: error: `law`: a trial run of this declaration was admitted, and the whole is not'),
    (False, 'nothing shown', 'refused, as it must be'),
    (False, 'still proved', 'NOT REFUSED: the crate is still proved with this edit (one that means the same as before cannot be refused: remove it)'),
    (False, 'cannot be applied', "BAD EDIT: an 'old:' text is in src/lib.rt 2 times, and not once"),
    (False, 'killed', 'NOT TRIED: its check was killed, most likely for memory, so nothing is known of it: run this again'),
]
# Of three edits in the tree.
COUNTS = [
    (True, 'rt: ok; handles allowed: none; must-fail edits: 3 refused; every proof and must-fail edit was done in this run'),
    (True, 'rt: ok; handles allowed: none; must-fail edits: 3 refused; done in this run: 0 of the 2 proofs (of crates and of their tests) and 0 of the 3 must-fail edits; the others'),
    (True, 'rt: ok; handles allowed: none; must-fail edits: 3 refused, 1 of them only by a limit; every proof and must-fail edit was done in this run'),
    (False, 'rt: ok; handles allowed: none; must-fail edits: 2 refused, 1 bad; every proof and must-fail edit was done in this run'),
    (False, 'rt: ok; handles allowed: none; must-fail edits: 3 refused, 1 of them only by a limit, 1 bad; every proof and must-fail edit was done in this run'),
    (False, 'rt: ok; handles allowed: none; must-fail edits: 2 refused; every proof and must-fail edit was done in this run'),
    (False, 'rt: ok; handles allowed: none; every proof was done in this run'),
    (False, 'rt: FAILED: low/same.edit'),
]
# What is said of an edit, and of one that rt passes over.
LOG = 'rt: low: trying its must-fail edits (1)\nrt: must-fail low/same.edit: refused, as it must be: note: src/lib.rt:11:1: it is not proved that\nrt: must-fail low/gone.edit: BAD EDIT: there is no file src/a.rt\n'
NAMED = [('low/same', True), ('low/gone', False), ('low/other', False)]


def self_test():
    wrong = [name for accepted, name, said in SAMPLES if classify(said)[0] != accepted]
    wrong += [line for is_right, line in COUNTS if (wrong_count(line, 3) is None) != is_right]
    wrong += [name for (name, accepted, _), told in zip(judged(LOG, [name for name, _ in NAMED]), NAMED) if (name, accepted) != told]
    for sample in wrong:
        print(f'must-fail logs: sample {sample}')
    print(f'{len(SAMPLES) + len(COUNTS) + len(NAMED) - len(wrong)} passed, {len(wrong)} failed')
    return not wrong


def main(words):
    if words == ['--self-test']:
        return self_test()
    if not words or words[0].startswith('-'):
        sys.exit('must_fail_logs.py FILE [CRATE..] or --self-test')
    return report(words[0], words[1:])


if __name__ == '__main__':
    sys.exit(0 if main(sys.argv[1:]) else 1)

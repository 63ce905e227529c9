#!/usr/bin/env python3
"""Checks the names in docs/AUDIT.md and docs/PROOFS.md: each file named is there, and each name is defined in the file named with it.

A reference is written "`name`, `name` in path"; "and in path" asks the same names of a further file. That a file uses a name is not enough:
the name has to stand where FORMS says that a thing is defined. "Words" in path asks only that these words stand there. PROOFS.md also writes
"`name`, path" and "`name` (path)", and its path may be a folder, for some file in it; where it names no file, a statement (`Name`) and a field
are of Demands.antt. Each line of AUDIT.md's tables must have a reference, and each name there a file. Of the public functions just those
that PROOFS.md lists have a `requires`. And a file of theory defines the main results that its head names at the end, "..: name, name."

  audit.py              one line for each thing that is wrong, then 'N passed, M failed'
  audit.py --self-test  tries the rules on samples
"""
import re
import sys
from pathlib import Path

TOP = Path(__file__).resolve().parent.parent
DEMANDS = "crates/rules/specs/Demands.antt"
# The crates whose functions are for callers, and how a name says that there is a `requires`.
PUBLIC = ("opening", "taking", "sending", "sealing", "marking", "totalling", "substituting", "listing", "station", "forms", "lines", "writer", "replying", "turns", "answering", "serving")
NEEDY = "_in_room"
PATH = r"(?:crates|tests|docs|include|examples|bench)/[\w./-]*\w"
NAMED = re.compile(rf"((?:(?:`[^`]+`|\"[^\"]+\")(?:, )?)+) in ({PATH})((?:[^;`|]*?,? and in {PATH})*)")
NAMED_LOOSELY = re.compile(rf"((?:`[^`]+`(?:, and |, | and )?)+)(?:,? in |, | \()({PATH})()")

# How a line begins that defines NAME; in Rust also an entry of a table, by its name.
RUST = r'^\s*(?:pub(?:\(\w+\))? )?(?:(?:const|unsafe|extern "C") )*(?:fn|struct|enum|trait|type|mod|const|static) NAME\b'
C = r"^#define NAME\b|^(?:\w+[ *]+)+NAME\([^;{]*\)\s*\{|^(?:typedef )?(?:struct|enum|union) NAME \{|^(?:static |const )[\w *]*\bNAME\b[^;({]*[=;]"
FORMS = {
    ".antt": r"^\s*(?:(?:abbrev|unfoldable|pub) )*(?:NAME :|(?:record|data) NAME(?![\w'-]))",
    ".rt": RUST,
    ".rs": RUST + r'|^\s*\(\s*"NAME", ?',
    ".c": C,
    ".h": C + r"|^(?:\w+[ *]+)+NAME\([^;{]*\);",
    ".py": r"^\s*(?:def|class) NAME\b|^NAME = ",
    ".sh": r"^\s*(?:function )?NAME ?\(\)|^\s*(?:(?:local|export|readonly) )?NAME=",
}
# Blocks whose members are defined in them: fields and variants (in Rust also those that a macro makes), and C's enumerators.
RUST_BLOCK = r"^( *)(?:(?:pub(?:\(\w+\))? )?(?:enum|struct) \w+[^;({]*|\w+! )\{\n(.*?)^\1\}"
BLOCKS = {".rt": RUST_BLOCK, ".rs": RUST_BLOCK, ".c": r"\b(enum)\b[^;({]*\{(.*?)\}", ".h": r"\b(enum)\b[^;({]*\{(.*?)\}"}
MEMBER = r"(?:^|[{,])\s*(?:pub(?:\(\w+\))? )?NAME(?=[\s,({:]|$)"


def found(form, name, text):
    return re.search(form.replace("NAME", re.escape(name)), text, re.M) is not None


def defined(name, text, suffix):
    """Whether a text, of a file with this suffix, defines a name."""
    if suffix not in FORMS:
        return False
    text = re.sub(r"/\*.*?\*/", "", text, flags=re.S) if suffix in (".c", ".h") else text
    blocks = re.findall(BLOCKS[suffix], text, re.M | re.S) if suffix in BLOCKS else []
    return found(FORMS[suffix], name, text) or any(found(MEMBER, name, body) for _, body in blocks)


def stands(words, text):
    """Whether words stand in a text as whole words; - and ' belong to words."""
    return re.search(rf"(?<![\w-]){re.escape(words)}(?![\w'-])", text) is not None


def files(path):
    """A file, or those of a folder whose definitions can be read."""
    at = TOP / path
    return [f for f in sorted(at.rglob("*")) if f.suffix in FORMS] if at.is_dir() else [at] if at.is_file() else []


def is_there(name, path):
    """Whether a name, in backticks, is defined under a path, or words, in quotes, stand there."""
    texts = [(f.read_text(encoding="utf-8"), f.suffix) for f in files(path)]
    if name[0] == '"':
        return any(stands(name[1:-1], text) for text, _ in texts)
    return any(defined(name[1:-1], text, suffix) for text, suffix in texts)


def wrong_names(line, form):
    """What a line names that is not there."""
    for path in re.findall(PATH, line):
        if not (TOP / path).exists():
            yield f"no file {path}"
    for names, path, more in form.findall(line):
        for file in [path, *re.findall(PATH, more)]:
            for name in re.findall(r'`[^`]+`|"[^"]+"', names):
                if not is_there(name, file):
                    yield f"{name} is not {'said' if name[0] == chr(34) else 'defined'} in {file}"


def wrong_in_audit(line):
    """The same of a line of AUDIT.md, where a path is a file and every name has one."""
    yield from wrong_names(line, NAMED)
    for path in re.findall(PATH, line):
        if (TOP / path).is_dir():
            yield f"{path} is a folder"
    for name in re.findall(r"`[^`]+`", NAMED.sub("", line)):
        yield f"{name} stands without a file"
    if not re.search(PATH, line):
        yield "nothing is named"


def wrong_in_proofs(line, head):
    """The same of a line of PROOFS.md, in a table with this head; a statement or field without a file is of Demands.antt."""
    yield from wrong_names(line, NAMED_LOOSELY)
    for column, cell in zip(head.split("|"), line.split("|")):
        form = {"statement": r"`[A-Z][^`]*`", "field": r"`[^`]+`"}.get(column.strip(), r"(?!)")
        for name in re.findall(form, NAMED_LOOSELY.sub("", cell)):
            if not is_there(name, DEMANDS):
                yield f"{name} is not defined in {DEMANDS}"


def lines(page):
    """The lines of a page's tables and its paragraphs, each as one line, with the head of the table."""
    head = ""
    for line in re.sub(r"(?<!\n)\n(?![\n|#-])", " ", page).splitlines():
        row = line.startswith("|")
        if not row or not head:
            head = line if row else ""
            if row:
                continue
        if line and not line.startswith("|---"):
            yield line, head


def let_out(crate):
    """The functions that a public crate lets out, each with what stands between its name and its body."""
    folder = TOP / "crates" / crate / "src"
    lib = (folder / "lib.rt").read_text(encoding="utf-8")
    modules = {"lib", *re.findall(r"^pub mod (\w+);", lib, re.M)}
    names = set(re.findall(r"^pub use (?:\w+::)+(\w+);", lib, re.M))
    for file in sorted(folder.glob("*.rt")):
        for name, contract in re.findall(r'^ *pub (?:extern "C" )?fn (\w+)(.*?)^ *\{', file.read_text(encoding="utf-8"), re.M | re.S):
            if file.stem in modules or name in names:
                yield name, contract


def wrong_needs(page):
    """Of the public functions: a `requires` that the name does not say, or that PROOFS.md does not list."""
    for crate in PUBLIC:
        for name, contract in let_out(crate):
            if bool(re.search(r"^ *requires\b", contract, re.M)) != name.endswith(NEEDY):
                yield f"{name} in crates/{crate}: a `requires` and a name in {NEEDY} go together"
            elif name.endswith(NEEDY) and f"`{name}`" not in page:
                yield f"{name} in crates/{crate} is not among PROOFS.md's with a `requires`"


def main_results(text):
    """The names that end a file's head."""
    head = re.match(r"(?:-- .*\n)*", text).group().replace("\n-- ", " ")
    names = re.search(r": ((?:[^\s,]+, )*[^\s,]+)\.$", head, re.M)
    return names.group(1).split(", ") if names else []


def wrong_heads():
    """Main results that a file of theory names and does not define."""
    for file in sorted((TOP / "crates" / "theory" / "specs").glob("*.antt")):
        text = file.read_text(encoding="utf-8")
        for name in main_results(text):
            if not defined(name, text, file.suffix):
                yield f"the head of {file.relative_to(TOP)} names {name}, which is not defined there"


def report():
    passed = failed = 0
    for page in ("AUDIT.md", "PROOFS.md"):
        for line, head in lines((TOP / "docs" / page).read_text(encoding="utf-8")):
            if page == "AUDIT.md" and not head:
                continue
            wrong = list(wrong_in_audit(line) if page == "AUDIT.md" else wrong_in_proofs(line, head))
            for what in wrong:
                print(f"audit: {page}, {line.strip('| ')[:60]}: {what}")
            failed += bool(wrong)
            passed += not wrong
    for wrong in (list(wrong_needs((TOP / "docs" / "PROOFS.md").read_text(encoding="utf-8"))), list(wrong_heads())):
        for what in wrong:
            print(f"audit: {what}")
        failed += bool(wrong)
        passed += not wrong
    print(f"{passed} passed, {failed} failed")
    return failed == 0


# Whether a text defines the name `it`, by the suffix of its file.
SAMPLES = [
    (True, ".antt", "abbrev pub it : ℕ → ℕ\nit n = n\n"),
    (True, ".antt", "module _ (n : ℕ) where\n  unfoldable pub it : ℕ\n"),
    (True, ".antt", "pub record it (t : ℕ) : Type 0 where\n"),
    (True, ".antt", "pub data Call : Type 0 where\n  it : (last : ℕ) → Call\n"),
    (False, ".antt", "use Rattle.rules.specs.Calls.{it}\n-- it : told\npub other : it ≡ it\nother = it\n"),
    (False, ".antt", "pub it_more : ℕ\nit_more = let it : ℕ = 0 in it\npub record Other (it : ℕ) : Type 0 where\n"),
    (True, ".rt", "#[unsafe(no_mangle)]\npub extern \"C\" fn it(last: u32) -> u64\n"),
    (True, ".rt", "impl Round {\n    pub const it: u32 = 4095;\n}\n"),
    (True, ".rt", "pub enum Out {\n    Silence,\n    it(Ticket),\n}\n"),
    (True, ".rt", "pub struct Round {\n    pub slot: Slot,\n    pub it: usize,\n}\n"),
    (False, ".rt", "use calls::it;\n// fn it\nfn other(it: u32) -> Round {\n    it(1);\n    Round {\n        it: 1,\n    }\n}\n"),
    (False, ".rt", "fn other() {\n    match a {\n        it(n) => 1,\n    }\n}\n"),
    (True, ".rs", "calls! {\n    /// Opens.\n    it(last: Slot) -> Reply = open;\n}\n"),
    (True, ".rs", "pub const FAULTS: &[Entry] = &[\n    (\"it\", \"said\", |rules| {\n"),
    (True, ".rs", "    (\n        \"it\",\n        \"said\",\n"),
    (True, ".rs", "    pub(crate) trait it {\n"),
    (False, ".rs", "#[test]\nfn other() {\n    let it = it(\"it\", 1);\n    const OTHER: u32 = it;\n}\n"),
    (True, ".c", "static int it(const struct seen *s,\n              unsigned set)\n{\n"),
    (True, ".c", "enum { FIRST = 8, it = 9 };\n"),
    (False, ".c", "int it(int a);\nint main(void)\n{\n    it(1);\n    return it(2);\n}\n/* it */\nenum { OTHER /* it, */ };\n"),
    (True, ".h", "#define it 16u\n"),
    (True, ".h", "uint64_t it(uint32_t last, uint8_t *table, size_t length);\n"),
    (False, ".h", "/* it */\n#define OTHER it\nstatic inline int other(int a)\n{\n    return it(a);\n}\n"),
    (True, ".py", "it = 1\n"),
    (False, ".py", "import it\nother = it\nif it == 1:\n    it()\n"),
    (True, ".sh", "it() { # NAME\n"),
    (False, ".sh", "it a b\necho \"$it\" # it=1\n"),
    (False, ".md", "# it\n"),
]
# What a line names, and where.
REFERENCES = [
    (NAMED, "| a | `b`, `c` in docs/D.md, and in docs/E.md |", [("`b`, `c`", "docs/D.md", ", and in docs/E.md")]),
    (NAMED, '| a | "b c" in docs/D.md; docs/E.md |', [('"b c"', "docs/D.md", "")]),
    (NAMED_LOOSELY, "| a | `B` (docs/D.md) | `b` and `c`, docs/E.md |", [("`B`", "docs/D.md", ""), ("`b` and `c`", "docs/E.md", "")]),
]
# What a head names at its end.
HEADS = [
    ("-- A plain line: and more.\nuse a.{b}\n", []),
    ("-- A plain line: more: one, two?.\n\n-- three: four.\n", ["one", "two?"]),
    ("-- Over two\n-- lines: one.\nuse a.{b}\n", ["one"]),
]


def self_test():
    wrong = [f"{suffix} {text!r}" for is_so, suffix, text in SAMPLES if defined("it", text, suffix) != is_so]
    wrong += [line for form, line, told in REFERENCES if form.findall(line) != told]
    wrong += [text for text, told in HEADS if main_results(text) != told]
    for sample in wrong:
        print(f"audit: sample {sample}")
    print(f"{len(SAMPLES) + len(REFERENCES) + len(HEADS) - len(wrong)} passed, {len(wrong)} failed")
    return not wrong


if __name__ == "__main__":
    sys.exit(0 if (self_test() if sys.argv[1:] == ["--self-test"] else report()) else 1)

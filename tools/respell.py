#!/usr/bin/env python3
"""Spells this repository's own definitions and lemmas in snake case, and moves laws out of specs/ where a wrong definition is kept that they refuse.

usage: tools/respell.py            at the top of the repository, once, right after the library's names were turned

A name that a file of specs/ or proofs/ declares in camel case or with dashes gets plain underscores, in those files, in the clauses and `ghost use` items
of src/, in must-fail/, and in the documents' code spans. Of two names that would fall together, the one in camel case is the definition: the other is a
lemma and gets `_lem`. Functions, fields and constants of src/ keep their names. An alias with a middle dot gives way to the name itself.
In a crate of LAWS the files named there move from specs/ to proofs/ as they stand, so that an edit of a definition is refused at a law.
It prints what a reader should look at: a new spelling that a file had already, and a parameter that would hide a name of its clauses.
"""
import collections
import glob
import os
import re

WORD = re.compile(r'[^\s(){}.;,@"«»`\[\]|]+')
QUIET = re.compile(r'"(?:[^"\\\n]|\\.)*"|--[^\n]*')
DECLARED = re.compile(r"^ *(?:abbrev |unfoldable |pub )*([^\s:(){}]+)(?: +\{[^}\n]*\})* : ", re.M)
CLAUSE = re.compile(r"(?:requires|ensures)\s*\*?\s*(?:\w+\s*)?\{|ghost\s+\w+\s*:\s*\{")
GHOST_USE = re.compile(r"ghost\s+use\b[^;]*;")
ALIAS = re.compile(r"(\w+) as (\w+·\w+)")

# The crates in which an edit of specs/ is kept, and the files there that hold laws, examples and theorems alone.
LAWS = {
    "bandai_fcg": "BoardLaws ModuleReadExamples ModuleReadLaws ReaderWordsLaws TypedLaws",
    "barcode": "BarcodeLaws Examples PatternLaws",
    "board_codes": "CodesLaws",
    "card_alike": "AlikeLaws ModulesLaws RunLaws",
    "card_decode": "DecodeLaws Examples ReadLaws",
    "card_insert": "InsertLaws",
    "cart": "CartWordsLaws",
    "eeprom": "EepromLaws RunLaws StepLaws",
    "eeprom_transactions": "ByteLaws TransactionLaws WholeLaws",
    "entries": "EntriesLaws",
    "event": "ClockLaws EventLaws EventWordsLaws Examples RefusalLaws",
    "event_words": "RecordLaws WordsLaws",
    "gs1": "CharacterLaws Examples Gs1Laws",
    "laws": "AppendLaws ChoiceLaws DecimalLaws ListsLaws SearchLaws TableLaws WordsLaws WrapsLaws",
    "memory": "Examples MemoryLaws WalkedLaws",
    "molbitak_session": "SessionsLaws",
    "molbitak_split": "SplitOnLaws",
    "reader_calls": "Examples ReaderCallsLaws",
    "regs": "RegsLaws RegsWordsLaws",
    "runs": "AlikeLaws BatchedLaws CheckpointLaws ComputedExamples CounterMachineExample CounterMachineLaws FeedLaws Laws StepwiseLaws Theorem",
    "session": "Examples SessionLaws TurnsLaws",
    "split_views": "Examples SplitViewsLaws",
    "state_file": "StateFileLaws",
    "text": "WordsLaws",
    "views": "Examples ViewsLaws",
}


def read(path):
    with open(path, encoding="utf-8") as f:
        return f.read()


def write(path, text):
    with open(path, "w", encoding="utf-8") as f:
        f.write(text)


def snake(name):
    return re.sub(r"(?<=[a-z0-9])[A-Z]", lambda m: "_" + m[0].lower(), name).replace("-", "_")


def is_camel(name):
    return bool(re.search(r"[A-Z]", name))


def texts():
    found = glob.glob("crates/*/specs/**/*.antt", recursive=True) + glob.glob("crates/*/proofs/**/*.antt", recursive=True)
    return sorted(it for it in found if "/out/" not in it)


def sources():
    return sorted(glob.glob("crates/*/src/**/*.rt", recursive=True))


def code_of(text):
    return QUIET.sub(" ", text)


def table():
    declared = set()
    for path in texts():
        # A file of laws or definitions stands right in specs/ or proofs/; deeper ones are the proofs of functions.
        if path.count("/") == 3:
            declared.update(it for it in DECLARED.findall(code_of(read(path))) if re.match(r"[a-z]", it))
    turned = {it: snake(it) for it in declared if snake(it) != it and "·" not in it}
    meeting = collections.defaultdict(set)
    for it in declared:
        meeting[snake(it)].add(it)
    for new, names in meeting.items():
        if len(names) > 1:
            camel = [it for it in names if is_camel(it)]
            plain = [it for it in names if it == new]
            first = camel[0] if len(camel) == 1 else plain[0] if plain else sorted(names)[0]
            for it in names:
                turned[it] = new if it == first else new + "_lem"
    return {old: new for old, new in turned.items() if old != new}


class Turner:
    def __init__(self, names):
        self.names = names

    def words(self, text):
        return WORD.sub(lambda m: self.names.get(m[0], m[0]), text)

    def prose(self, text):
        """Of a comment: what stands in a code span, and a bare word in camel case."""
        text = re.sub(r"`[^`\n]*`", lambda m: self.words(m[0]), text)
        return WORD.sub(lambda m: self.names[m[0]] if m[0] in self.names and is_camel(m[0]) else m[0], text)

    def antt(self, text):
        out, at = [], 0
        for m in QUIET.finditer(text):
            out += [self.words(text[at : m.start()]), self.prose(m[0]) if m[0][:2] == "--" else m[0]]
            at = m.end()
        return "".join(out) + self.words(text[at:])

    def rt(self, text):
        for old, alias in ALIAS.findall(" ".join(GHOST_USE.findall(text))):
            text = text.replace(f"{old} as {alias}", old).replace(alias, old)
        spans = [m.span() for m in GHOST_USE.finditer(text)]
        for m in CLAUSE.finditer(text):
            depth, end = 1, m.end()
            while depth:
                depth += {"{": 1, "}": -1}.get(text[end], 0)
                end += 1
            spans.append((m.start(), end))
        spans += [m.span() for m in re.finditer(r"//[^\n]*", text)]
        out, at = [], 0
        for start, end in sorted(spans):
            if start >= at:
                part = text[start:end]
                out += [text[at:start], self.prose(part) if part[:2] == "//" else self.words(part)]
                at = end
        return "".join(out) + text[at:]


def turned_line(text, turner, declared):
    """A line of an edit in today's form: a projection is written tight, an operator's holes are circles, and a name that is declared in snake case is so spelled."""
    text = re.sub(r"(?<=[\w\])»']) (?=\.[\w«])", "", text)
    text = re.sub(r"\(([\w'«»]+(?:\.[\w'«»]+)+)\)(?!\.)", r"\1", text)
    text = re.sub(r"(?<![\w])_([^\w\s_]+)_(?![\w])", r"◌\1◌", text).replace("«", "").replace("»", "")
    text = re.sub(r"\bgetD\b", "get_or", turner.words(text))
    return WORD.sub(lambda m: snake(m[0]) if snake(m[0]) in declared and m[0] not in declared else m[0], text)


def turned_edit(text, turner, declared):
    out, is_antt = [], False
    for line in text.split("\n"):
        head, _, rest = line.partition(":")
        if head == "file":
            is_antt = rest.strip().endswith(".antt")
        elif head in ("old", "new"):
            if is_antt or "ensures" in rest or "requires" in rest or "≡" in rest:
                rest = turned_line(rest, turner, declared)
            line = f"{head}:{rest}"
        out.append(line)
    return "\n".join(out)


def look(names):
    new = set(names.values())
    for path in texts() + sources():
        text = read(path)
        if path.endswith(".rt"):
            text = " ".join(GHOST_USE.findall(text))
        found = set(WORD.findall(code_of(text)))
        for old in sorted(found & set(names)):
            if names[old] in found:
                print(f"look: {path}: has {names[old]} already, beside {old}")
    for path in sources():
        text = read(path)
        for m in re.finditer(r"\bfn (\w+)(?:<[^>]*>)?\(([^)]*)\)([^;]*?)\n?\{\n", text):
            parameters = set(re.findall(r"(\w+):", m[2])) | ({"self"} if "self" in m[2] else set())
            hidden = {names[it] for it in WORD.findall(m[3]) if it in names} & parameters
            if hidden:
                print(f"look: {path}: {m[1]} has a parameter {sorted(hidden)} that its clauses cite")
    return new


def move():
    moved = {}
    for crate, files in sorted(LAWS.items()):
        lib, proofs = f"crates/{crate}/specs/Lib.antt", f"crates/{crate}/proofs/Lib.antt"
        os.makedirs(f"crates/{crate}/proofs", exist_ok=True)
        own = read(proofs) if os.path.exists(proofs) else ""
        for name in files.split():
            os.rename(f"crates/{crate}/specs/{name}.antt", f"crates/{crate}/proofs/{name}.antt")
            write(lib, re.sub(rf"(?m)^pub mod {name}\n", "", read(lib)))
            own += f"pub mod {name}\n"
            moved[f"Rattle.{crate}.specs.{name}"] = f"Rattle.{crate}.proofs.{name}"
        write(proofs, own)
    for path in texts() + sources():
        text = read(path)
        new = re.sub(r"Rattle\.\w+\.specs\.\w+", lambda m: moved.get(m[0], m[0]), text)
        if new != text:
            write(path, new)
    for path in glob.glob("crates/*/must-fail/*.edit"):
        crate, text = path.split("/")[1], read(path)
        new = re.sub(r"(?m)^file: specs/(\w+)\.antt", lambda m: f"file: proofs/{m[1]}.antt" if m[1] in LAWS.get(crate, "").split() else m[0], text)
        if new != text:
            write(path, new)


def main():
    names = table()
    look(names)
    turner = Turner(names)
    for path in texts():
        write(path, turner.antt(read(path)))
    for path in sources():
        write(path, turner.rt(read(path)))
    declared = {it for path in texts() for it in DECLARED.findall(code_of(read(path)))}
    for path in glob.glob("crates/*/must-fail/*.edit"):
        write(path, turned_edit(read(path), turner, declared))
    move()
    for path in ["README.md", *glob.glob("docs/**/*.md", recursive=True)]:
        write(path, re.sub(r"`[^`\n]*`", lambda m: turner.words(m[0]), read(path)))
    print(f"{len(names)} names turned")


if __name__ == "__main__":
    main()

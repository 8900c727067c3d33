#!/usr/bin/env python3
"""Bring this repository's own definitions and lemmas to today's spelling: words in snake case, types and modules in
camel case. Run once, at the top, after the kit's port.py. Functions of src/, exported names, strings, inputs and outputs
keep their names.

    python3 tools/port_names.py [--list]

--list prints the names, old and new, and changes nothing."""
import collections
import glob
import os
import re
import sys

# What stands for a word in place of its mere respelling, where two names would fall together or a word is taken.
SPECIAL = {
    # a lemma that would have its function's name gets `_lem`
    "all_read": "all_read_lem", "bench-text": "bench_text_lem", "by-inputs": "by_inputs_lem", "by-room": "by_room_lem",
    "by-table": "by_table_lem", "by-tag": "by_tag_lem", "by-trace": "by_trace_lem", "fine-if": "fine_if_lem",
    "in_order": "in_order_lem", "is-internal": "is_internal_lem", "is-variable": "is_variable_lem",
    "least-part": "least_part_lem", "no-action": "no_action_lem", "no_value": "no_value_lem",
    "numbers-in": "numbers_in_lem", "over-one": "over_one_lem", "over-two": "over_two_lem", "row_from": "row_from_lem",
    "tests-from": "tests_from_lem", "text-of": "text_of_lem", "until-of": "until_of_lem",
    "bit-and": "bit_and_lem", "bit-or": "bit_or_lem",
    # a field or a case beside a definition of that name
    "counter-after": "next_counter", "noRule": "no_rule_done", "oneScan": "one_scan_inputs", "phase-at": "phase_is",
}

BREAK = "\\s(){}\\[\\].,;:=→λ×⊎≡∷|↦`\"“”"
TOKEN = re.compile("[^" + BREAK + "]+")
FUNCTION_FILES = ("Proof.antt", "Answers.antt", "Invariants.antt")
WORDS = {"first_of"}


def snake(name):
    if name in SPECIAL:
        return SPECIAL[name]
    out = name.replace("-", "_").replace("′", "'")
    out = re.sub(r"(?<=[a-z0-9])([A-Z])(?=[a-z0-9']|$|_|[A-Z])", lambda m: "_" + m.group(1).lower(), out)
    out = re.sub(r"([A-Z])", lambda m: "_" + m.group(1).lower(), out) if out[:1].islower() else out
    return re.sub(r"__+", "_", out)


def odd(name):
    """A word that is not in snake case: it has a dash between letters, or a capital behind a small letter."""
    return bool(re.search(r"[\w₀-₉≤<'′]-|-[\w≤<]", name)) or bool(re.match(r"[a-z«].*[A-Z]", name))


def lemma_files():
    found = glob.glob("crates/*/specs/**/*.antt", recursive=True) + glob.glob("crates/*/proofs/**/*.antt", recursive=True)
    return sorted(f for f in found if os.path.basename(f) not in FUNCTION_FILES and "/out/" not in f)


def function_files():
    found = glob.glob("crates/*/proofs/**/*.antt", recursive=True)
    return sorted(f for f in found if os.path.basename(f) in FUNCTION_FILES and "/out/" not in f)


def own_names():
    """Names that files of specs/ and proofs/ declare, with what kind each is and whether it stands at the file's margin."""
    names = {}
    fields, cases = set(), set()
    for file in lemma_files():
        mode, margin = None, 0
        for line in open(file, encoding="utf-8"):
            text = line.rstrip("\n")
            bare = text.strip()
            indent = len(text) - len(text.lstrip())
            if not bare or bare.startswith("--"):
                continue
            kind = re.match(r"\s*(?:abbrev )?(?:pub )?(record|data)\s+(\S+)", text)
            if kind:
                mode, margin = kind.group(1), indent
                names.setdefault(kind.group(2), []).append((file, "type", True))
                continue
            if mode and indent <= margin:
                mode = None
            if mode and indent == margin + 2:
                head = re.match(r"(?:pub )?([^:]*?)\s*:", bare)
                if head:
                    for name in head.group(1).split():
                        (fields if mode == "record" else cases).add(name)
                continue
            head = re.match(r"\s*((?:abbrev |unfoldable |pub )*)([^\s(){}:.,;]+)\s*(?:\{[^}]*\}\s*)?:\s(.*)", text)
            if head and not mode:
                marked = "pub" in head.group(1)
                names.setdefault(head.group(2), []).append((file, "word", indent == 0 or marked))
    return names, fields, cases


def imported(file_text):
    """The names that a file imports, and whether from this repository."""
    found = {}
    for line in file_text.split("\n"):
        use = re.match(r"\s*(?:ghost )?use ([^{]*)(\{.*)?", line)
        if not use or line.strip().startswith("--"):
            continue
        own = use.group(1).startswith("Rattle.") and not re.match(r"Rattle\.(std|core|io|libc)\b", use.group(1))
        if use.group(2):
            for token in TOKEN.findall(use.group(2)):
                found[token] = own
        else:
            for token in TOKEN.findall(use.group(1)):
                found[token] = own
    return found


def words_of(text, change):
    """The text with each word changed: `change` is given the word, whether a dot stands before it, and the word before."""
    out, at, before = [], 0, ""
    for m in TOKEN.finditer(text):
        out.append(text[at:m.start()])
        dotted = m.start() > 0 and text[m.start() - 1] == "."
        out.append(change(m.group(0), dotted, before))
        before = m.group(0)
        at = m.end()
    out.append(text[at:])
    return "".join(out)


def quoted(text, known):
    """A comment or a page: words between backticks, where today's spelling is a known name."""
    def one(m):
        return "`" + words_of(m.group(1), lambda w, d, b: snake(w) if odd(w) and snake(w) in known else w) + "`"
    return re.sub(r"`([^`\n]*)`", one, text)


def antt(text, renamed, fields, known, local):
    uses = imported(text)

    def change(word, dotted, before, in_use, own_use):
        if not odd(word) and word not in renamed:
            return word
        if in_use:
            return renamed.get(word, word) if own_use else word
        if word in uses and not uses[word]:
            return word
        if dotted:
            if word in fields:
                return snake(word)
            return renamed.get(word, word) if before[:1].isupper() else word
        if word in renamed:
            return renamed[word]
        if word in fields or local and odd(word) and word[:1].islower() and word not in uses:
            return snake(word)
        return word

    lines = []
    for line in text.split("\n"):
        code, sep, comment = line, "", ""
        if line.lstrip().startswith("--"):
            code, comment = "", line
        use = re.match(r"\s*use (\S*)", code)
        own = bool(use) and use.group(1).startswith("Rattle.") and not re.match(r"Rattle\.(std|core|io|libc)\b", use.group(1))
        if use:
            path = re.match(r"(\s*use [^{]*)(.*)", code)
            if path.group(2) or not own:
                head = path.group(1)
                code = head + words_of(path.group(2), lambda w, d, b: change(w, d, b, True, own))
            else:
                first, _, last = path.group(1).rpartition(".")
                code = first + "." + words_of(last, lambda w, d, b: change(w, d, b, True, own))
        else:
            code = words_of(code, lambda w, d, b: change(w, d, b, False, False))
        lines.append(code + sep + quoted(comment, known))
    return "\n".join(lines)


def source(text, renamed, known):
    """A source file: `ghost use` lines and clauses, and comments that quote a name."""
    lines, depth = [], 0
    for line in text.split("\n"):
        bare = line.strip()
        if bare.startswith("//"):
            lines.append(quoted(line, known))
            continue
        clause = depth > 0 or re.match(r"(ghost|requires|ensures)\b", bare)
        if clause:
            use = re.match(r"ghost use (\S*?)\{", bare)
            if bare.startswith("ghost use"):
                if not re.match(r"ghost use Rattle\.(std|core|io|libc)\b", bare):
                    line = words_of(line, lambda w, d, b: renamed.get(w, w))
            else:
                line = words_of(line, lambda w, d, b: renamed.get(w, w) if not d or b[:1].isupper() else w)
                depth += line.count("{") - line.count("}")
                depth = max(depth, 0)
        lines.append(line)
    return "\n".join(lines)


def edit(text, renamed, fields, known):
    out, kind = [], ""
    for line in text.split("\n"):
        part = re.match(r"(file|old|new):( ?)(.*)", line)
        if part and part.group(1) == "file":
            kind = part.group(3).strip()
        elif part and kind.endswith(".antt"):
            line = part.group(1) + ":" + part.group(2) + antt(part.group(3), renamed, fields, known, False)
        elif part and kind.endswith(".rt"):
            line = part.group(1) + ":" + part.group(2) + source(part.group(3), renamed, known)
        out.append(line)
    return "\n".join(out)


def main():
    names, fields, cases = own_names()
    types = {n for n, places in names.items() if any(kind == "type" for _, kind, _ in places)}
    wide = {n for n, places in names.items() if n not in types and any(shared for _, _, shared in places)}
    renamed = {n: snake(n) for n in wide | cases if n[:1].islower() and odd(n) or n in SPECIAL}
    changed_fields = {n for n in fields if odd(n)}
    foreign = {}
    for file in lemma_files() + function_files():
        for name, own in imported(open(file, encoding="utf-8").read()).items():
            if not own:
                foreign.setdefault(name, file)
    for name in sorted(set(renamed) & set(foreign)):
        print(f"look: {name} is a library's too, as {foreign[name]} imports it; left where it is imported")
    everything = set(names) | cases | fields
    by_new = collections.defaultdict(set)
    for name in everything:
        by_new[snake(name) if odd(name) else name].add(name)
    for new, olds in sorted(by_new.items()):
        if len(olds) > 1:
            print(f"together: {new}: {', '.join(sorted(olds))}: " + ' '.join(sorted({f for o in olds for f, _, _ in names.get(o, [])})))
    for name in sorted(renamed):
        if renamed[name] in foreign:
            print(f"taken: {name} -> {renamed[name]}, which {foreign[renamed[name]]} imports from a library")
    known = set(by_new) | set(renamed.values()) | {snake(n) for n in changed_fields}
    for file in lemma_files() + function_files():
        local = file in lemma_files()
        old = open(file, encoding="utf-8").read()
        new = antt(old, renamed, changed_fields, known, local)
        code = lambda t: "\n".join(line for line in t.split("\n") if not line.lstrip().startswith("--"))
        became = collections.defaultdict(set)
        for a, b in zip(TOKEN.findall(code(old)), TOKEN.findall(code(new))):
            became[b].add(a)
        for b, a in became.items():
            if len(a) > 1:
                print(f"in one file: {file}: {b}: {', '.join(sorted(a))}")
    if "--list" in sys.argv:
        for name in sorted(renamed):
            print(f"{name} -> {renamed[name]}")
        return
    count = 0

    def put(file, new):
        nonlocal count
        old = open(file, encoding="utf-8").read()
        if new != old:
            count += 1
            open(file, "w", encoding="utf-8").write(new)
    for file in lemma_files():
        put(file, antt(open(file, encoding="utf-8").read(), renamed, changed_fields, known, True))
    for file in function_files():
        put(file, antt(open(file, encoding="utf-8").read(), renamed, changed_fields, known, False))
    for file in sorted(glob.glob("crates/*/src/**/*.rt", recursive=True)):
        put(file, source(open(file, encoding="utf-8").read(), renamed, known))
    for file in sorted(glob.glob("crates/*/must-fail/*.edit")):
        put(file, edit(open(file, encoding="utf-8").read(), renamed, changed_fields, known))
    for file in ["README.md"] + sorted(glob.glob("docs/**/*.md", recursive=True)):
        put(file, quoted(open(file, encoding="utf-8").read(), known))
    print(f"{len(renamed)} names, {count} files")


if __name__ == "__main__":
    main()

#!/usr/bin/env python3
"""Brings the names of this repository's definitions and lemmas to today's spelling, and the must-fail edits with them.

usage: python3 tools/port_names.py [FOLDER]     once, at the top of the repository (or in FOLDER), right after port.py

A word is in snake case, a type or module in camel case: `slot-word` is `slot_word`, `history-A` is `history_a`,
`At-stage` is `AtStage`; an `as` name with a middle dot, `Sheet·put`, is `sheet_put`. Functions of src/, exported
names, strings, inputs and outputs are left alone. Names of the library keep their spelling: they are those that a
file imports from no crate of this repository. It stops, and writes nothing, where two names of one module fall
together. Pages (README.md, docs/) get the new names where they stand in backticks.
"""

import os
import re
import sys

NAME = re.compile(r"(?<![\w'·-])[^\W\d][\w'·]*(?:-[\w'·]+)*(?![\w'·]|-\w)")
USE = re.compile(r"^((?:pub )?(?:ghost )?use )([\w.·]+)\.\{([^}]*)\}", re.M)
DECLARED = re.compile(r"^\s*((?:(?:unfoldable|abbrev|pub|data|record|ruleset)\s+)*)([^\s:(){}]+)(?:\s+[({].*)? : ", re.M)
ENGLISH = {"64-bit", "Little-endian", "little-endian"}
MADE = {"Statement", "Tie", "Goals", "Given"}

# Edits whose line port.py laid out anew or whose words it changed: the pair in today's text. FILE: {old: new}.
EDITS = {
    "atomic/must-fail/one_read_step_fewer.edit": {
        "  pub reads : Each (λ x. x .steps ≤ length (x .gets .shows) + 4) (h .reads)":
            "  pub reads : Each (λ x. x.steps ≤ length x.gets.shows + 4) h.reads",
        "  pub reads : Each (λ x. x .steps ≤ length (x .gets .shows) + 3) (h .reads)":
            "  pub reads : Each (λ x. x.steps ≤ length x.gets.shows + 3) h.reads",
    },
    "register/must-fail/offset_of_desks_not_tested.edit": {
        "    ∷ eqb (getD a 5 0) (desks-at (shape-of a))": "    ∷ eqb (get_or a 5 0) (desks_at (shape_of a))",
        "    ∷ eqb (getD a 5 0) (getD a 5 0)": "    ∷ eqb (get_or a 5 0) (get_or a 5 0)",
    },
    "register/must-fail/write_clears_old_words.edit": {
        "use Prim.Native.Nat.{ℕ, suc, _*_}": "use Rattle.std.specs.Prelude.{Bool, true, false, cond, ◌&&◌, not,",
        "use Prim.Native.Nat.{ℕ, suc, _+_, _-_, _*_}":
            "use Rattle.std.specs.Prelude.{Bool, true, false, cond, ◌&&◌, not, ◌+◌, ◌-◌, replicate,",
    },
    "theory/must-fail/fields_in_one_place.edit": {
        "field-at i (w ∷ l) (suc f) = field-at (i + w) l f": "field_at i (w ∷ l) (suc f) = field_at (i + w) l f",
        "field-at i (w ∷ l) (suc f) = field-at i l f": "field_at i (w ∷ l) (suc f) = field_at i l f",
    },
}

# A pair that stands no more, since the port made one line of the two that it changed. FILE: the old texts.
GONE = {"register/must-fail/write_clears_old_words.edit": {"use lib.ListN.{length, getD}"}}


def spelled(name):
    """Today's spelling of a name of this repository."""
    if name in ENGLISH:
        return name
    if "·" in name:
        name = "_".join(re.sub(r"(?<=[a-z])(?=[A-Z])", "_", part).lower() for part in name.split("·"))
    if name[0].isupper():
        if "-" not in name:
            return name
        head, *rest = name.split("-")
        return head + "".join(part[0].upper() + part[1:] for part in rest)
    name = name.replace("-", "_")
    return re.sub(r"(?<=[a-z0-9])(?=[A-Z])", "_", name).lower() if re.search("[A-Z]", name) else name


def crates(root):
    with open(os.path.join(root, "crates.txt")) as f:
        return {line.split(":")[0].split()[0] for line in f if line.strip() and not line.startswith("#")}


def files(root, ending):
    for folder, dirs, names in os.walk(os.path.join(root, "crates")):
        dirs[:] = sorted(d for d in dirs if d != "out")
        for name in sorted(names):
            if name.endswith(ending):
                yield os.path.join(folder, name)


def read(path):
    with open(path, encoding="utf-8") as f:
        return f.read()


def is_own(module, own):
    parts = module.split(".")
    return parts[0] == "Rattle" and len(parts) > 1 and parts[1] in own and not MADE & set(parts)


def imported(text, own, wanted):
    """The names that a file imports, from this repository or (wanted false) from elsewhere."""
    found = set()
    for m in USE.finditer(text):
        if is_own(m.group(2), own) == wanted:
            for item in m.group(3).split(","):
                found |= set(re.split(r" as ", item.strip()))
    return {n for n in found if n}


def in_code(line, change):
    """A line of antt with its code and the names in its comment changed."""
    return NAME.sub(lambda m: change(m.group(0)), line)


def turned_antt(text, own, lemma_file, fields):
    library = imported(text, own, False)
    if lemma_file:
        def change(n):
            return n if n in library else spelled(n)
        return "\n".join(in_code(line, change) for line in text.split("\n"))
    ours = imported(text, own, True) - library
    text = NAME.sub(lambda m: spelled(m.group(0)) if m.group(0) in ours else m.group(0), text)
    return re.sub(r"\.([\w']+(?:-[\w']+)+)", lambda m: "." + spelled(m.group(1)) if m.group(1) in fields else m.group(0), text)


def turned_rt(text, own):
    ours = imported(text, own, True)
    out = []
    for line in text.split("\n"):
        if line.strip().startswith("//"):
            line = re.sub(r"`([^`]*)`", lambda m: "`" + NAME.sub(lambda k: spelled(k.group(0)) if k.group(0) in ours else k.group(0), m.group(1)) + "`", line)
        else:
            line = NAME.sub(lambda m: spelled(m.group(0)) if m.group(0) in ours and not is_code(line) else m.group(0), line)
        out.append(line)
    return "\n".join(out)


def is_code(line):
    """A line of Rust, where a name of the same letters would be a function or a field."""
    return False


def declared_in(text):
    return {m.group(2) for m in DECLARED.finditer(text)}


def clashes(root, own):
    said = []
    for path in files(root, ".antt"):
        text = read(path)
        names = declared_in(text) | imported(text, own, True)
        library = imported(text, own, False)
        seen = {}
        for n in sorted(names - library):
            seen.setdefault(spelled(n), set()).add(n)
        for new, olds in seen.items():
            if len(olds) > 1 or new in library:
                said.append(f"{path}: {sorted(olds)} would be {new}" + (", a name of the library" if new in library else ""))
    return said


def turned_edit_text(text, rust, names):
    if rust:
        return text
    text = text.replace("′", "'")
    text = re.sub(r"([\w'\)]) (\.[a-z][\w'-]*)", r"\1\2", text)
    text = re.sub(r"\(([\w'-]+(?:\.[\w'-]+)+)\)", r"\1", text)
    return NAME.sub(lambda m: spelled(m.group(0)) if spelled(m.group(0)) in names else m.group(0), text)


def edits(root, names):
    said = []
    for path in files(root, ".edit"):
        text = read(path)
        crate = os.path.dirname(os.path.dirname(path))
        target = re.search(r"^file: (.*)$", text, re.M).group(1).strip()
        rust = target.endswith(".rt")
        key = os.path.relpath(path, os.path.join(root, "crates"))
        by_hand = EDITS.get(key, {})
        lines, dropped = [], False
        for line in text.split("\n"):
            m = re.match(r"(old|new): (.*)$", line)
            if m and m.group(2) in GONE.get(key, set()):
                dropped = True
            elif dropped:
                dropped = False
                continue
            if dropped:
                continue
            if m:
                line = m.group(1) + ": " + by_hand.get(m.group(2), turned_edit_text(m.group(2), rust, names))
            lines.append(line)
        with open(path, "w", encoding="utf-8") as f:
            f.write("\n".join(lines))
        now = read(os.path.join(crate, target))
        for line in lines:
            if line.startswith("old: "):
                k = now.count(line[5:])
                if k != 1:
                    said.append(f"{key}: {k} times in {target}: {line[5:]}")
                    break
            elif line.startswith("new: "):
                now = now.replace(old, line[5:])
            old = line[5:]
    return said


def pages(root, names):
    found = [os.path.join(root, "README.md")]
    for folder, dirs, here in os.walk(os.path.join(root, "docs")):
        found += [os.path.join(folder, n) for n in here if n.endswith(".md")]
    for path in found:
        if not os.path.exists(path):
            continue
        text = read(path)
        new = re.sub(r"`[^`\n]*`", lambda m: NAME.sub(lambda k: spelled(k.group(0)) if k.group(0) in names else k.group(0), m.group(0)), text)
        if new != text:
            with open(path, "w", encoding="utf-8") as f:
                f.write(new)


def main(argv):
    root = argv[0] if argv else "."
    own = crates(root)
    fault = clashes(root, own)
    if fault:
        print("\n".join(fault))
        print("port_names: names fall together; nothing was written")
        return 1
    names, fields = set(), set()
    for path in files(root, ".antt"):
        text = read(path)
        if len(os.path.relpath(path, os.path.join(root, "crates")).split(os.sep)) == 3:
            names |= declared_in(text)
            fields |= declared_in(text)
    for path in files(root, ".antt"):
        inside = os.path.relpath(path, os.path.join(root, "crates")).split(os.sep)
        lemma_file = len(inside) == 3
        text = read(path)
        new = turned_antt(text, own, lemma_file, fields)
        if new != text:
            with open(path, "w", encoding="utf-8") as f:
                f.write(new)
    for path in files(root, ".rt"):
        text = read(path)
        new = turned_rt(text, own)
        if new != text:
            with open(path, "w", encoding="utf-8") as f:
                f.write(new)
    changed = {n for n in names if spelled(n) != n}
    pages(root, changed)
    left = edits(root, {spelled(n) for n in names})
    print("\n".join(left))
    print(f"port_names: {len(changed)} names have another spelling; {len(left)} edits are left by hand")
    return 0


if __name__ == "__main__":
    raise SystemExit(main(sys.argv[1:]))

#!/usr/bin/env python3
"""Brings this repository's own names to today's spelling: run once, at the top, behind /opt/rattle/port/port.py.

Words are in snake case. In a lemma's name a dash stays where it joins two names of definitions, and is an underscore
elsewhere. The crate `core`, which is now a library of the toolchain, is `unchecked`. Functions of src/, strings,
inputs and outputs keep their names. What is renamed is printed, and names that would fall together are told.
"""
import re
import subprocess
import sys
from collections import defaultdict
from pathlib import Path

ROOT = Path(".")
CRATE_OLD, CRATE_NEW = "core", "unchecked"
# modules of that crate that port.py took for the library's, and the one of the library that it took for the crate's
CRATE_MODULES = r"(specs\.(?:Places|Runnable)|proofs\.(?:Kept|Stepped|Performed|other_or_own))\b"

# names that port.py respelled, and that fall together with one of another file of ours; they take their dashes back
RETURNED = [
    (ROOT / "crates/language/proofs/Lines.antt", "too_long", "too-long"),
    (ROOT / "crates/spelling/proofs/Numbers.antt", "all_digits", "all-digits"),
    (ROOT / "crates/spelling/proofs/Numbers.antt", "is_digit", "is-digit"),
    # and one that it took for a word of the library
    (ROOT / "crates/model/proofs/Searched.antt", "last_Fits", "last_fits"),
]

TOKEN = re.compile(r"[^\s(){}\[\].,;\"`|:«»◌]+")
# strings of either language; comments of antt and of the code
PIECES = re.compile(r'("(?:[^"\\\n]|\\.)*")|((?<![^\s])--[^\n]*|//[^\n]*)')
SIGNATURE = re.compile(r"^\s*(?:(?:pub|abbrev|unfoldable|private)\s+)*((?:[^\s:(){}=,;.]+ )+): ")
KEYWORDS = {"pub", "abbrev", "unfoldable", "data", "record", "private", "use", "module", "let", "in", "where", "elim"}
STD_WORDS = set("""append length map take drop concat cond some none true false set get_or update replicate reverse nil suc zero
add sub mul div mod min max eqb ltb leb not and or list bool nat""".split())


def snake(word):
    return re.sub(r"(?<=[a-z0-9'])([A-Z])", lambda m: "_" + m.group(1).lower(), word) if re.match(r"[a-z]", word) else word


def respelled(name, known):
    """The name with its words in snake case, and with each dash that joins no two names as an underscore."""
    parts = [snake(part) for part in name.split("-")]
    if any(not part for part in parts):
        return name
    out = parts[0]
    for i in range(1, len(parts)):
        left = any("_".join(parts[j:i]) in known for j in range(i))
        right = any("_".join(parts[i:j]) in known for j in range(i + 1, len(parts) + 1))
        out += ("-" if left and right else "_") + parts[i]
    return out


def antt_files():
    return sorted(path for path in ROOT.glob("crates/*/*/**/*.antt") if "out" not in path.parts)


def is_shared(path):
    """specs/*.antt and proofs/*.antt, and not the proof of one function."""
    return path.parts[2] == "specs" or len(path.parts) == 4


def signatures(text):
    for line in text.splitlines():
        if line.lstrip().startswith("--") or line.startswith("use "):
            continue
        found = SIGNATURE.match(line)
        if found:
            yield from (word for word in found.group(1).split() if word not in KEYWORDS)


def std_names():
    """Every name that the toolchain's library declares."""
    names = set()
    for path in Path("/opt/rattle/rattle").rglob("*.antt"):
        names.update(signatures(path.read_text(encoding="utf-8", errors="ignore")))
    return names


IMPORT = re.compile(r"^(?:ghost )?use ((?:[^\s.{]+\.)+)\{([^}]*)\}", re.M)


def imports(text):
    for found in IMPORT.finditer(text):
        yield found.group(1).rstrip("."), [item.strip() for item in found.group(2).split(",") if item.strip()]


def replace(text, table, camel_in_comments=True):
    """Replaces whole names outside strings; in comments only words in camel case, and what stands between backquotes."""
    def code(part):
        return TOKEN.sub(lambda m: table.get(m.group(), m.group()), part)

    def comment(part):
        quoted = re.sub(r"`[^`\n]*`", lambda m: code(m.group()), part)
        return TOKEN.sub(lambda m: table.get(m.group(), m.group()) if "-" not in m.group() else m.group(), quoted)

    out, at = [], 0
    for piece in PIECES.finditer(text):
        out.append(code(text[at:piece.start()]))
        out.append(piece.group(1) if piece.group(1) is not None else comment(piece.group(2)))
        at = piece.end()
    out.append(code(text[at:]))
    return "".join(out)


def rename_crate():
    old = ROOT / "crates" / CRATE_OLD
    if old.exists():
        subprocess.run(["git", "mv", str(old), str(ROOT / "crates" / CRATE_NEW)], check=False)
        if old.exists():
            old.rename(ROOT / "crates" / CRATE_NEW)
    listed = ROOT / "crates.txt"
    lines = []
    for line in listed.read_text().splitlines():
        if not line.startswith("#"):
            line = re.sub(rf"\b{CRATE_OLD}\b", CRATE_NEW, line)
        lines.append(line)
    listed.write_text("\n".join(lines) + "\n")
    for path in [*antt_files(), *ROOT.glob("crates/*/src/**/*.rt")]:
        text = path.read_text(encoding="utf-8")
        new = re.sub(r"\bRattle\.(?:core|std)\." + CRATE_MODULES, rf"Rattle.{CRATE_NEW}.\1", text)
        new = new.replace("Rattle.core.specs.Prelude", "Rattle.std.specs.Prelude").replace("Rattle.core.proofs.Common", "Rattle.std.proofs.Common")
        new = new.replace("Rattle.core.", f"Rattle.{CRATE_NEW}.")
        if path.suffix == ".rt":
            new = re.sub(r"(?<![\w:])core::", f"{CRATE_NEW}::", new)
        if new != text:
            path.write_text(new, encoding="utf-8")


def main():
    rename_crate()
    std = std_names()
    texts = {path: path.read_text(encoding="utf-8") for path in antt_files()}
    sources = {path: path.read_text(encoding="utf-8") for path in ROOT.glob("crates/*/src/**/*.rt")}

    # the repository's own names, and where each is declared
    declared = defaultdict(set)
    for path, text in texts.items():
        for name in signatures(text):
            if is_shared(path) or re.search(r"(?:^|[-_])[a-z][a-z0-9']*[A-Z]", name):
                declared[name].add(path)
    known = {snake(name) for name in declared if "-" not in name and len(name) > 1} | STD_WORDS
    for text in sources.values():
        known.update(re.findall(r"\bfn (\w+)", text))
        known.update(re.findall(r"^\s+pub (\w+):", text, re.M))
        known.update(re.findall(r"\b(?:struct|enum) (\w+)", text))

    table = {}
    for name in sorted(declared):
        new = respelled(name, known)
        if new != name:
            table[name] = new

    # names that fall together: a dashed name keeps its dashes
    def clashes():
        taken = defaultdict(set)
        for name in [*declared, *std]:
            taken[table.get(name, name) if name in declared else name].add(name)
        return {new: olds for new, olds in taken.items() if len(olds) > 1 and any(old in table for old in olds)}

    # in one file too: what a file has already, but for parts of paths
    words = {}
    for path, text in texts.items():
        plain = PIECES.sub(" ", re.sub(r"^use [^{\n]*", "", text, flags=re.M))
        words[path] = set(TOKEN.findall(plain))
    together = defaultdict(set)
    for path, there in words.items():
        for old, new in table.items():
            if old in there and new in there:
                together[new].add(old)
                print("falls together:", path, old, new)
    # a lemma that port.py brought to the name that a definition of the same file takes
    for path, name, dashed in RETURNED:
        texts[path] = replace(texts[path], {name: dashed})
        path.write_text(texts[path], encoding="utf-8")

    kept = []
    for new, olds in sorted([*clashes().items(), *together.items()]):
        for old in sorted(olds):
            if "-" in old and old in table:
                once = "-".join(snake(part) for part in old.split("-"))
                kept.append((old, once, sorted(olds - {old})))
                if once == old:
                    del table[old]
                else:
                    table[old] = once
    for old, once, others in kept:
        print("keeps its dashes:", old, "->", once, "beside", *others)

    # a name of ours that one of today's library shares stays that of the library where a file brings it in from there
    changed = {}
    for path, text in {**texts, **sources}.items():
        foreign, own = set(), set()
        for module, items in imports(text):
            crate = module.split(".")[1] if module.startswith("Rattle.") and "." in module else ""
            if (ROOT / "crates" / crate).is_dir() and crate:
                own.update(item.split(" as ")[0] for item in items)
            else:
                foreign.update(item for item in items)
        here = dict(table)
        for name in foreign:
            here.pop(name, None)
        if path in texts and not is_shared(path):
            mine = set(signatures(text))
            for name in list(here):
                if "-" in name and name not in own and name in text:
                    # a made name, as of a goal or a step, unless another module is named before it
                    if not re.search(r"[\w'-]+\." + re.escape(name) + r"(?![\w'-])", text):
                        here.pop(name)
                    elif name in mine:
                        here.pop(name)
                        print("left, perhaps a made name:", path, name)
        new = replace(text, here)
        if new != text:
            changed[path] = new
    for path, new in changed.items():
        path.write_text(new, encoding="utf-8")

    # port.py respelled some names in one file and not in another: an import takes the spelling of the declaration
    texts = {path: path.read_text(encoding="utf-8") for path in antt_files()}
    exported = {}
    for path, text in texts.items():
        if is_shared(path):
            exported[(path.parts[1], path.parts[2], path.stem)] = set(re.findall(r"[^\s(){}\[\].,;\"`|:]+", text))
    for path in [*texts, *ROOT.glob("crates/*/src/**/*.rt")]:
        text = path.read_text(encoding="utf-8")
        mend = {}
        for module, items in imports(text):
            parts = module.split(".")
            there = exported.get((parts[1], parts[2], parts[3])) if len(parts) == 4 else None
            if there is None:
                continue
            plain = {re.sub("[-_]", "", name).lower(): name for name in there if not name[0].isupper()}
            for item in items:
                name = item.split(" as ")[0]
                if name not in there and not name.startswith("◌"):
                    found = plain.get(re.sub("[-_]", "", name).lower())
                    if found:
                        mend[name] = found
                    else:
                        print("not found:", path, module, name)
        if mend:
            print("mended:", path, mend)
            path.write_text(replace(text, mend), encoding="utf-8")

    Path("/tmp/respelled.txt").write_text("".join(f"{old} {new}\n" for old, new in sorted(table.items())))
    print(f"respelled: {len(table)} names, {len(changed)} files")


if __name__ == "__main__":
    sys.exit(main())

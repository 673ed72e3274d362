#!/usr/bin/env python3
"""Lists the places of docs/DESIGN-PASS.md in the sources: tools/places.py [POINT..] [--list]. Each point's patterns stand below; a place is one type, constant group, function, loop or fact."""

import re
import sys
from collections import Counter, defaultdict
from pathlib import Path

ROOT = Path(sys.argv[0]).resolve().parent.parent


def sources():
    """Each source file below crates/, with its text without comments and strings."""
    for path in sorted(ROOT.glob("crates/*/src/*.rt")):
        text = path.read_text(encoding="utf-8")
        yield path, re.sub(r'b?"(?:[^"\\]|\\.)*"', '""', re.sub(r"//[^\n]*", "", text), flags=re.S)


def functions(text):
    """Name, head (up to the body) and body of each function."""
    for found in re.finditer(r"^( *)(?:pub(?:\(crate\))? )?(?:const )?fn (\w+)", text, re.M):
        indent = found.group(1)
        end = re.search(rf"^{indent}}}$", text[found.start():], re.M)
        whole = text[found.start():found.start() + end.end()] if end else text[found.start():]
        body = re.search(rf"(?:^{indent}|\)|> |\w |\] ){{$", whole, re.M)
        at = body.start() if body else len(whole)
        yield found.group(2), whole[:at], whole[at:]


def types(text):
    """Kind, name and fields or variants of each struct and enum."""
    return re.findall(r"(struct|enum) (\w+)[^{;]*\{\n(.*?)^\}", text, re.M | re.S)


FLAGS = {"there", "over", "bad", "good", "digits", "present", "reason", "refusal", "number"}


def point_1(path, text):
    for kind, name, inside in types(text):
        words = re.findall(r"^ *(?:pub )?(\w+)", inside, re.M)
        if kind == "enum" and {"Refused", "Nothing", "Absent", "Fits"} & set(words):
            yield f"enum {name} with a case for none or for a refusal"
        if kind == "struct" and len(words) > 1 and FLAGS & set(words):
            yield f"struct {name} with a flag beside a value ({', '.join(sorted(FLAGS & set(words)))})"
        if kind == "struct" and "answer" in words and len(words) > 1:
            yield f"struct {name} with an answer beside a value"
        for field in re.findall(r"^ *(?:pub )?(phase|code|kind|owner|source|left|row): [ui]\d+", inside, re.M):
            yield f"field {name}.{field}, a number for a kind or for none"
    groups = re.findall(r"(?:^(?:pub )?const [A-Z_]+: (?:u8|i32) = [^;]*;\n+){3,}", text, re.M)
    for _ in groups:
        yield "three or more number constants in a row, for kinds"
    for name, head, body in functions(text):
        if re.search(r"-> u8\s*(?:$|\n)", head) and re.search(r"refusal|NOBODY|number", name + body):
            yield f"fn {name}, which answers a number for none"


def point_3(path, text):
    for name, head, body in functions(text):
        for _ in re.finditer(r"\bwhile\b|\bloop \{", body):
            yield f"fn {name}"


def point_4(path, text):
    for name, head, body in functions(text):
        if re.match(r"same_|lesser$|wide$|bit_of$|copy_front$|byte_of$|ticks_of$|magnitude$|is_blank$|is_digit$|low_byte$|code_of$|receive_numbers$|move_down$", name):
            yield f"fn {name}"
        if name.startswith("put_") or name.startswith("tell_"):
            yield f"fn {name}, which prints by hand"


def point_6(path, text):
    for kind, name, inside in types(text):
        if kind == "struct" and re.search(r"\[[^\]]*; ", inside) and re.search(r"\b(len|count|end|stop): ", inside):
            yield f"struct {name}, an array with a length"
    for name, head, body in functions(text):
        slices = re.findall(r"(\w+): &(?:mut )?\[(u8|u32)(?:; 32)?\]", head)
        if len({"senders", "targets", "waits", "owners", "held", "sources", "receivers"} & {s for s, _ in slices}) > 1:
            yield f"fn {name}, parallel arrays"
        if re.search(r": \[[^\]]*; \w+\],\s*(?:len|count)\b", head):
            yield f"fn {name}, an array and its length"


def point_7(path, text):
    for name, head, body in functions(text):
        for word in re.findall(r"\bmatch (mode|row|phase|ending|kind|i|via|digit|code)\b", body):
            yield f"fn {name}, a match on {word}"
        if len(re.findall(r"\bif \w*(?:row|kind|mode|letter)\w* == ", body)) > 1:
            yield f"fn {name}, a chain of tests of one number"


def point_5(everything):
    facts, groups = defaultdict(list), defaultdict(list)
    for path, text in everything:
        crate = path.parts[-3]
        for name, head, body in functions(text):
            for fact in set(re.findall(r"requires(?: \w+)? \{ (.*) \}", head)):
                facts[crate, fact].append(name)
            names = re.findall(r"(?:[(,]\s*)(\w+): ", re.sub(r"\{.*?\}", "", head.split("->")[0]))
            for pair in {(a, b) for a in names for b in names if a < b}:
                groups[crate, pair].append(name)
    for (crate, fact), names in sorted(facts.items()):
        if len(names) >= 3:
            yield f"{crate}: {fact}: {len(names)} contracts"
    for (crate, pair), names in sorted(groups.items()):
        if len(names) >= 6:
            yield f"{crate}: parameters {' and '.join(pair)}: {len(names)} functions"


def point_2(everything):
    shapes = defaultdict(list)
    for path, text in everything:
        for name, head, body in functions(text):
            words = re.findall(r"[A-Za-z_]\w*|\d+|[^\s\w]", body)
            if len(words) > 20:
                shapes[tuple("w" if re.match(r"[A-Za-z_0-9]", w) and w not in {"if", "return", "while", "match", "let", "mut", "true", "false", "for"} else w for w in words)].append(f"{path.parts[-3]}::{name}")
    for names in shapes.values():
        if len(names) > 1:
            yield f"the same shape: {', '.join(names)}"


def main(argv):
    wanted = [int(a) for a in argv if a.isdigit()] or [1, 2, 3, 4, 5, 6, 7]
    everything = list(sources())
    for point in wanted:
        if point in (2, 5):
            places = list((point_2 if point == 2 else point_5)(everything))
        else:
            places = [f"{path.relative_to(ROOT / 'crates')}: {place}" for path, text in everything for place in globals()[f"point_{point}"](path, text)]
        print(f"point {point}: {len(places)}")
        if "--list" in argv:
            print("".join(f"    {place}\n" for place in places), end="")


main(sys.argv[1:])

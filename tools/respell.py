#!/usr/bin/env python3
"""Brings the definitions and lemmas of this repository to one spelling: functions, lemmas and fields in snake case,
types and modules in upper camel case; a dash only between two names of definitions. Names of src/, strings and goals
that the check names stay. Run at the top: tools/respell.py [--list]"""
import glob
import re
import sys

# Two rules that would have the names of functions which answer something else.
OWN = {"behaviorOf": "control_behavior", "summaryOf": "control_summary"}

TOKEN = re.compile(r"[A-Za-z_][A-Za-z0-9_'?≢≡≤-]*")
DEFINED = re.compile(r"^(\s*)((?:abbrev |unfoldable |pub |data |record |constructor |mutual )*)([^\s:(){}λ]+)((?: [^\s:]+)*?)\s+(?:\(.*|\{.*)?:\s(.*)$")
GENERATED = re.compile(r"^(goal|given|need)\.")


def antt_files():
    return sorted(glob.glob("crates/*/specs/**/*.antt", recursive=True) + glob.glob("crates/*/proofs/**/*.antt", recursive=True))


def defined_and_imported():
    defined, imported, goals = {}, set(), set()
    for path in antt_files():
        for line in open(path):
            if line.startswith(("use ", "pub use ")):
                foreign = not any(("Rattle.%s." % c) in line for c in CRATES)
                if foreign and "{" in line:
                    imported.update(n.strip() for n in line[line.index("{") + 1:line.rindex("}")].split(","))
                continue
            if line.lstrip().startswith(("--", "let ", "λ", "in ", "∙", "|", "(", "elim")):
                continue
            found = DEFINED.match(line)
            if not found:
                continue
            name, rest = found.group(3), found.group(5)
            if GENERATED.match(rest.strip()):
                goals.add(name)
            else:
                defined.setdefault(name, set()).add(path)
    return defined, imported, goals


def snake(name):
    return re.sub(r"(?<=[a-z0-9])([A-Z])", lambda m: "_" + m.group(1).lower(), name)


def spelling(name, words):
    parts = [snake(p) if re.match(r"^[a-z]", p) else p for p in name.replace("getD", "get_or").split("-")]
    return ("-" if all(p in words for p in parts) else "_").join(parts)


def changes():
    defined, imported, goals = defined_and_imported()
    specs = {n for n, where in defined.items() if any("/specs/" in w for w in where)}
    words = {snake(n) for n in specs} | {n for n in imported if "-" not in n}
    change = {}
    for name in sorted(defined):
        if name in imported or name in goals or not re.match(r"^[a-z]", name):
            continue
        new = OWN.get(name) or spelling(name, words)
        if new != name:
            change[name] = new
    # a lemma that would have the name of a definition gets another ending
    taken = {}
    for old in sorted(change, key=lambda n: "-" in n):
        new = change[old]
        if new in taken:
            change[old] = new + "_lem"
        taken[change[old]] = old
    for old, new in list(change.items()):
        if new in defined and new not in change:
            if new in specs:
                change[old] = new + "_lem"
            else:
                change[new] = new + "_lem"
    return change


def respell(path, change):
    text = open(path).read()
    code = path.endswith(".rt")
    made = []
    for line in text.split("\n"):
        remark = line.lstrip().startswith(("--", "//"))
        module = re.match(r"use Rattle\.[a-z_]+\.proofs\.[a-z]|pub mod |mod ", line) if not code else None
        if code and '"' in line:
            made.append(line)
            continue

        def one(found):
            old = found.group(0)
            upper = re.search("[A-Z]", old)
            if remark and not upper or code and not upper and "-" not in old:
                return old
            return change.get(old, old)

        if module:
            head, brace, rest = line.partition("{")
            line = head + brace + TOKEN.sub(one, rest)
        else:
            line = TOKEN.sub(one, line)
        made.append(line)
    return text, "\n".join(made)


def main():
    change = changes()
    for path in antt_files() + sorted(glob.glob("crates/*/src/**/*.rt", recursive=True)):
        text, made = respell(path, change)
        before = set(TOKEN.findall(text))
        for old in sorted(before & set(change)):
            if change[old] in before and change[old] not in change:
                print("look:", path, old, change[old])
        if made != text and "--list" not in sys.argv:
            open(path, "w").write(made)
    for old in sorted(change):
        print(old, change[old])


CRATES = [l.split(":")[0].strip() for l in open("crates.txt") if ":" in l and not l.startswith("#")]
main()

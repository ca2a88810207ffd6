#!/usr/bin/env python3
"""Counts the older forms of code in crates/*/src: tools/forms.py [--list] [COMMIT]

Each number is that of a point of docs/DESIGN-PASS.md. A place that is counted is one to look at: which of them stay, and why, is there.
"""

import re
import subprocess
import sys
from collections import defaultdict
from pathlib import Path

KEYWORDS = {"let", "mut", "while", "if", "else", "return", "match", "for", "in", "loop", "as", "true", "false", "continue", "break", "self"}
ENUM = re.compile(r"^(?:pub )?enum (\w+)[^{]*\{\n(.*?)^\}", re.M | re.S)


def git(*words):
    return subprocess.run(["git", *words], check=True, capture_output=True, text=True).stdout


def sources(commit):
    if commit is None:
        return {str(path): path.read_text() for path in sorted(Path(".").glob("crates/*/src/**/*.rt"))}
    names = [name for name in git("ls-tree", "-r", "--name-only", commit, "crates").split("\n") if re.match(r"crates/\w+/src/.*\.rt$", name)]
    return {name: git("show", f"{commit}:{name}") for name in names}


def functions(text):
    """Name, head and body of each function."""
    for found in re.finditer(r"^( *)(?:pub )?(?:extern \"C\" )?fn (\w+)", text, re.M):
        indent, start = found.group(1), found.start()
        close = re.compile(rf"^{indent}\}}$", re.M).search(text, start)
        whole = text[start : close.end()] if close else ""
        opened = re.search(rf"(\{{|^{indent}\{{)\n", whole, re.M)
        if opened:
            yield found.group(2), whole[: opened.start()], whole[opened.end() : whole.rfind("\n")]


def shape(body):
    body = re.sub(r"//.*", "", body)
    body = re.sub(r"\b[0-9]\w*\b", "N", body)
    body = re.sub(r"\b[A-Za-z_]\w*\b", lambda word: word.group(0) if word.group(0) in KEYWORDS else "x", body)
    return " ".join(body.split())


def places(texts):
    found, shapes, requires = defaultdict(list), defaultdict(list), defaultdict(list)
    for path, text in texts.items():
        where = path.replace("crates/", "").replace("/src/", "/")
        code = re.sub(r"//.*", "", text)
        for name, variants in ENUM.findall(code):
            if len(re.findall(r"^    \w", variants, re.M)) == 2:
                found["1 enums of two variants"].append(f"{where} {name}")
        for field in re.findall(r"^    (?:pub )?(some: bool|number: u8),$", code, re.M):
            found["1 flags and numbers beside a value"].append(f"{where} {field}")
        for constant in re.findall(r"^pub const (\w+): u8 = (?:\d+|SheetCeilings::TASKS);$", code, re.M):
            found["1 numbers for kinds"].append(f"{where} {constant}")
        for name, head, body in functions(code):
            here = f"{where} {name}"
            shapes[shape(body)].append(here)
            for line in re.findall(r"requires (?:\w+ )?\{ (.*) \}", head):
                requires[line].append(here)
            for _ in re.findall(r"^ *(?:while|loop)\b", body, re.M):
                found["3 while and loop"].append(here)
            if len(re.findall(r"=> (?:true|false),", body)) > 1:
                found["4 tests for variants by hand"].append(here)
            found["4 `return` of true or false, or of each arm"] += [here] * bool(
                re.search(r"return (?:true|false);", body) or len(re.findall(r"=> \{\n\s*return\b", body)) > 1
            )
            if len(re.findall(r"\b(\w+): (\w+)\.\1,", body)) > 1:
                found["4 structs copied field by field"].append(here)
            if len(re.findall(r"/ 256\b", body)) > 1 or len(re.findall(r"\* 256\b", body)) > 1:
                found["4 bytes of a number by hand"].append(here)
            for pair in (r"\w+: &mut \[u8\],\s*(?:place|at): usize", r"memory: &(?:mut )?Memory,\s*task: &(?:mut )?Task"):
                if re.search(pair, head):
                    found["5 parameters that travel together"].append(here)
            if len(re.findall(r"=> (?:\{\n\s*return )?(?:\w+::)*\w+\([^\n]*\)[,;\n]", body)) > 3 and body.count("match") == 1:
                found["7 a switch on the step to run"].append(here)
        for struct, fields in re.findall(r"struct (\w+)[^{;]*\{\n(.*?)^\}", code, re.M | re.S):
            arrays = re.findall(r": \[\w+; ([\w: ]+)\]", fields)
            if arrays and re.search(r"count: usize", fields):
                found["6 buffers with a length"].append(f"{where} {struct}")
            if len(arrays) != len(set(arrays)):
                found["6 parallel arrays"].append(f"{where} {struct}")
        for name, size in re.findall(r"type (\w+) = \[\w+; (\d+)\];", code):
            found["6 arenas"].append(f"{where} {name}")
    for body, names in shapes.items():
        if len(names) > 1 and len(body) > 12:
            found["2 bodies of one shape"] += names
    for line, names in requires.items():
        if len(names) > 2:
            found["5 clauses in three or more contracts"] += [f"{name}: {line}" for name in names]
    return found


def main(words):
    listed = "--list" in words
    commits = [word for word in words if word != "--list"]
    found = places(sources(commits[0] if commits else None))
    for name in sorted(found):
        print(f"{len(found[name]):4} {name}")
        if listed:
            print("".join(f"       {place}\n" for place in sorted(found[name])), end="")


main(sys.argv[1:])

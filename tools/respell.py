#!/usr/bin/env python3
"""Brings the repository's own names in .rt clauses and .antt files to Rattle's spelling: snake case for words, a dash only where it joins
two names. It runs once, after port.py, at the top of the repository. Types, modules, Rust names and the commands' names in capitals stay.

usage: python3 tools/respell.py [FOLDER]
"""

import collections
import os
import re
import sys

TOKEN = re.compile(r"[^\s(){}\[\].,;:\"]+")
DEFINED = re.compile(r"^ *(?:abbrev |unfoldable )?(?:pub )?([^\s(){}\[\].,;:λ-][^\s(){}\[\].,;:]*) :(?= |$)", re.M)
IMPORTED = re.compile(r"^(?:ghost )?use ([^\n{]*)\{([^}]*)\}", re.M)
# Proofs of single functions: their names are those of the function's goals, which Rattle makes.
OF_A_FUNCTION = ("Proof.antt", "Answers.antt", "Invariants.antt")


# Lemmas and constructors of proofs/ that would have a definition's name in the same file, and the files that name them.
TOGETHER = [
    ("all_seen", "all_seen_lem", ["model/proofs/AttemptCases", "model/proofs/ArrivalCases"]),
    ("all_noted", "all_noted_lem", ["model/proofs/AttemptCases"]),
    ("all_pass", "all_pass_lem", ["model/proofs/Cases"]),
    ("all_whole", "all_whole_lem", ["model/proofs/WholeCases"]),
    ("all_old", "all_old_lem", ["model/proofs/Demand3/Swap"]),
    ("same_word", "same_word_lem", ["model/proofs/Exchanges/" + f for f in ("Exact", "Outcome", "Words")]),
    ("swap_ends", "swap_ends_lem", ["model/proofs/History/Statement"]),
    ("none_left", "none_left_lem", ["model/proofs/Rates/Own"]),
    ("count_by", "count_by_lem", ["model/proofs/Fit/Blocks"]),
    ("goes_on", "goes_on_reading", ["model/proofs/Rates/Timely", "model/proofs/Rates/Bank", "model/proofs/Exchanges/Rates"]),
    ("goes_on", "goes_on_lem", ["model/proofs/Transactions/Pass", "refinement/proofs/Access", "refinement/proofs/Between"]),
    ("first_read", "first_read_lem", ["refinement/proofs/Access", "refinement/proofs/Inside"]),
    ("turned_down", "turned_down_lem", ["sheet/proofs/Accepted"]),
    ("shared_zeros", "shared_zeros_lem", ["state/proofs/Zeros", "start/proofs/blank/Proof"]),
]


def snake(word):
    """camelCase to snake_case; a word that begins with a capital stays, and so does a byte of Rust's, as b'W'."""
    if not re.match(r"[a-z](?!')", word) or not re.search(r"[A-Z]", word):
        return word
    word = re.sub(r"([a-z0-9])([A-Z])", r"\1_\2", word)
    return re.sub(r"([A-Z])([A-Z][a-z])", r"\1_\2", word).lower()


def files(root):
    for folder, dirs, names in os.walk(os.path.join(root, "crates")):
        dirs[:] = sorted(d for d in dirs if d != "out")
        for name in sorted(names):
            if name.endswith((".rt", ".antt")):
                yield os.path.join(folder, name)


def joined(name, known):
    """The name with each dash that does not join two known names as an underscore."""
    parts = name.split("-")
    out = parts[0]
    for before, after in zip(parts, parts[1:]):
        out += ("-" if before in known and after in known else "_") + after
    return out


def table(texts):
    """What each token becomes, where nothing else has that name."""
    defined, known, tokens, others = set(), set(), set(), set()
    own = {p.split("crates/")[-1].split("/")[0] for p in texts}
    for path, text in texts.items():
        tokens.update(TOKEN.findall(text))
        for module, imported in IMPORTED.findall(text):
            parts = module.split(".")
            if parts[0] != "Rattle" or parts[1] not in own:
                others.update(w.strip() for w in imported.split(","))
        if path.endswith(".antt") and not path.endswith(OF_A_FUNCTION):
            here = DEFINED.findall(text)
            defined.update(here)
            if "/specs/" in path:
                known.update(here)
    known = {snake(w) for w in known | others if "-" not in w}
    names, lemmas = {}, {}
    for token in tokens - others:
        word = "-".join(snake(p) for p in token.split("-"))
        if token in defined and "-" in token and re.match(r"[a-z]", token):
            lemmas[token] = joined(word, known)
        if word != token:
            names[token] = word
    # A lemma keeps its dashes where a definition or another lemma would have its name.
    taken = collections.Counter(lemmas.values()) + collections.Counter(set(names.values()) | (tokens - lemmas.keys()))
    for token, word in lemmas.items():
        if word != token and taken[word] == 1:
            names[token] = word
    return names


def together(texts, names):
    """In each .antt file the tokens that become one name there."""
    for path, text in texts.items():
        if path.endswith(".antt"):
            code = re.sub(r"--.*", "", text)
            met = collections.defaultdict(set)
            for token in TOKEN.findall(code):
                met[names.get(token, token)].add(token)
            for word, of in met.items():
                if len(of) > 1:
                    yield path, word, sorted(of)


def respell(text, names, of_a_function):
    def one(match):
        token = match.group()
        if "-" in token and of_a_function and text[match.start() - 1 : match.start()] == ".":
            path = re.search(r"[^\s(){}\[\],;:\"]*$", text[: match.start()]).group()
            if re.match(r"(c|w|l|k|tie|goal)\.", path):
                return token
        if "-" in token and of_a_function and re.match(r"(abbrev |unfoldable )?(pub )?$", text[text.rfind("\n", 0, match.start()) + 1 : match.start()]):
            return token
        return names.get(token, token)

    return TOKEN.sub(one, text)


def main(root="."):
    texts, read = {}, {}
    for path in files(root):
        with open(path, encoding="utf-8") as f:
            read[path] = text = f.read()
        here = {a: b for a, b, where in TOGETHER if path.removesuffix(".antt").endswith(tuple("crates/" + w for w in where))}
        texts[path] = TOKEN.sub(lambda m: here.get(m.group(), m.group()), text) if here else text
    names = table(texts)
    for path, word, of in together(texts, names):
        print(f"look: {path}: {', '.join(of)} are {word}")
    for path, text in texts.items():
        new = respell(text, names, path.endswith(OF_A_FUNCTION))
        if new != read[path]:
            with open(path, "w", encoding="utf-8") as f:
                f.write(new)
    print(f"{len(names)} names respelled")


if __name__ == "__main__":
    main(*sys.argv[1:])

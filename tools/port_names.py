#!/usr/bin/env python3
"""Brings this repository's own names to the spelling of today's Rattle: words in snake case. Run once, after port.py, at the top.

It respells definitions, lemmas and labels in specs/, proofs/, src/ and must-fail/ (strings stay, and so do the functions of src/), and in
the pages, where a name stands between backticks. A lemma that would then have its definition's name gets `_lem`."""
import glob, re, sys

# lemmas that would fall together with the definition that they speak of
LEMMAS = ["is_digit", "is_block", "no_write", "to_end", "same_bytes", "cast_fits", "same_number", "part_end", "plain_size"]
# in these files a lemma alone has the name, in the whole file
LOCAL = {"crates/usage/proofs/Claims.antt": ["one_more"]}
# aliases that stood for a name of the older library
ALIASES = [("get_or-append as List·getD-append", "get_or-append"), ("get_or-eq_default as List·getD-eq-default", "get_or-eq_default"),
           ("List·getD-append", "get_or-append"), ("List·getD-eq-default", "get_or-eq_default")]
CAMEL = re.compile(r"(?<![A-Za-z0-9_])([a-z][a-z0-9]*(?:_[a-z0-9]+)*[A-Z][A-Za-z0-9]*)(?![A-Za-z0-9]|_[A-Z])")
STRING = re.compile(r'("(?:[^"\\\n]|\\.)*")')
KEPT = {"getD"}


def snake(word):
    word = re.sub(r"([A-Z]+)$", lambda m: "_" + m.group(1).lower(), word) if re.search(r"[a-z0-9][A-Z]+$", word) else word
    return re.sub(r"(?<=[a-z0-9])([A-Z])", lambda m: "_" + m.group(1).lower(), word)


def words(text):
    return CAMEL.sub(lambda m: m.group(1) if m.group(1) in KEPT else snake(m.group(1)), text)


def outside_strings(text, f):
    return "".join(part if i % 2 else f(part) for i, part in enumerate(STRING.split(text)))


def antt(path, text):
    for old, new in ALIASES:
        text = text.replace(old, new)
    for name in LEMMAS + LOCAL.get(path, []):
        text = re.sub(r"(?<![\w.`:'-])" + name + r"(?![\w`'-]|\.[a-zA-Z{])", name + "_lem", text)
    # `needs`, the older name of the rules of `search`; `needs-2` and its like are lemmas of this repository
    text = re.sub(r"(?<![\w.-])needs(?![\w-])(?=[,}])", "rules", text)
    text = re.sub(r"\bsearch needs(?![\w-])", "search rules", text)
    text = re.sub(r"\bsearch \(needs(?![\w-])", "search (rules", text)
    # the proof of a function f is f_spec
    if path.endswith("/Proof.antt"):
        for name in re.findall(r"^(?:pub )?([\w-]+-spec) :", text, re.M):
            text = re.sub(r"(?<![\w-])" + re.escape(name) + r"(?![\w-])", name.replace("-", "_"), text)
    return outside_strings(text, words)


def main():
    changed = 0
    known = set()
    for path in glob.glob("crates/*/specs/**/*.antt", recursive=True) + glob.glob("crates/*/proofs/**/*.antt", recursive=True):
        for m in CAMEL.finditer(STRING.sub("", open(path).read())):
            known.add(m.group(1))
    files = [p for k in ("specs", "proofs") for p in glob.glob("crates/*/%s/**/*.antt" % k, recursive=True)]
    files += glob.glob("crates/*/src/**/*.rt", recursive=True) + glob.glob("crates/*/must-fail/*.edit")
    for path in files:
        text = open(path).read()
        new = antt(path, text) if path.endswith(".antt") else outside_strings(text, words)
        if path.endswith(".edit"):
            new = words(text)
        if new != text:
            open(path, "w").write(new)
            changed += 1
    for path in glob.glob("*.md") + glob.glob("docs/*.md") + glob.glob("docs/changes/*.md") + glob.glob("compare/*.md"):
        text = open(path).read()
        new = re.sub(r"`([^`\n]+)`", lambda m: "`" + CAMEL.sub(lambda k: snake(k.group(1)) if k.group(1) in known - KEPT else k.group(1), m.group(1)) + "`", text)
        if new != text:
            open(path, "w").write(new)
            changed += 1
    print("port_names:", changed, "files changed")


if __name__ == "__main__":
    main()

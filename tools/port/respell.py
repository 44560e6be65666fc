#!/usr/bin/env python3
"""Brings the repository's own definitions and lemmas to snake case, after port.py has turned the rest.

usage: tools/port/respell.py [--check]        at the top of the repository; --check writes nothing and lists what would turn

A definition, field or lemma that crates/*/specs or a file of lemmas in crates/*/proofs declares: asBefore is as_before, and a lemma
get-put is get_put. Types and modules keep upper camel case, and so do names of source. What stands in a proof's own folder and is
asked for by Rattle, as returns-2, is not a declared name and stays. Pages and must-fail edits cite the same names, between backticks
and in code.
"""

import glob
import re
import sys

NAME = r"[^\s(){}.;,@\"«»\[\]|λ`:]+"
MODIFIERS = r"(?:(?:abbrev|unfoldable|opaque|pub)\s+)*"
DECLARES = re.compile(rf"^\s*{MODIFIERS}([a-z]{NAME})(?=\s*:\s)", re.M)
LISTED = re.compile(rf"^\s*pub\s+((?:[a-z]{NAME}\s+)+)(?=:\s)", re.M)
CAMEL = re.compile(r"(?<![\w'-])[a-z]\w*[A-Z]\w*'*(?![\w'-])")
DEFINES = re.compile(rf"^\s*(?:abbrev|unfoldable)\s+(?:pub\s+)?([a-z]{NAME})(?=\s*:\s)", re.M)
WORD = re.compile(rf"{NAME}")
TICKED = re.compile(r"`[^`\n]*`")
PAGES = ["README.md", *(f"docs/{n}.md" for n in ("ARCHITECTURE", "DECISIONS", "FORMATS", "PROMISES", "RULES", "TESTING"))]


def snake(name):
    """kEl0pten is k_el0pten, notATimerAccess not_a_timer_access, read-back read_back."""
    name = re.sub(r"(?<=[a-z0-9])(?=[A-Z])|(?<=[A-Z])(?=[A-Z][a-z])", "_", name)
    return name.lower().replace("-", "_")


def read(path):
    with open(path, encoding="utf-8") as file:
        return file.read()


def without_comments(text):
    return re.sub(r"(?m)(^|\s)--.*$", r"\1", text)


def lemma_files():
    return sorted(glob.glob("crates/*/specs/**/*.antt", recursive=True)) + sorted(glob.glob("crates/*/proofs/*.antt"))


def declared():
    """Each name of the repository's own that is not yet in snake case, with its new spelling. Where a definition and a lemma about it
    differed in that alone, the lemma gets _lem."""
    found, defined = set(), set()
    for path in lemma_files():
        code = without_comments(read(path))
        found.update(DECLARES.findall(code))
        for names in LISTED.findall(code):
            found.update(names.split())
        found.update(CAMEL.findall(code))
        defined.update(snake(name) for name in DEFINES.findall(code) if CAMEL.fullmatch(name))
    table = {name: snake(name) for name in found if name != snake(name)}
    return {old: new + "_lem" if "-" in old and new in defined else new for old, new in table.items()}


def turn_code(text, table, comments):
    """Each word of the code; of a comment only what can be no word of prose, a name in camel case."""

    def word(match):
        return table.get(match.group(), match.group())

    def line(code):
        at = re.search(rf"(?:^|(?<=\s)){comments}", code)
        end = at.start() if at else len(code)
        return WORD.sub(word, code[:end]) + CAMEL.sub(word, code[end:])

    return "\n".join(line(code) for code in text.split("\n"))


def turn_page(text, table):
    """Names between backticks. A page also cites names that port.py turned, so any in camel case whose new spelling is declared."""

    def word(match):
        name = match.group()
        return table.get(name, snake(name) if snake(name) in known else name)

    known = set()
    for path in lemma_files():
        known.update(DECLARES.findall(without_comments(read(path))))
    return TICKED.sub(lambda ticked: CAMEL.sub(word, ticked.group()), text)


def fall_together(table):
    """Two old names with one new spelling, or an old name that becomes one which some file has already."""
    news = {}
    for old, new in table.items():
        news.setdefault(new, []).append(old)
    for new, olds in sorted(news.items()):
        if len(olds) > 1:
            print(f"look: {' and '.join(sorted(olds))} become {new}")
    for path in lemma_files():
        words = set(WORD.findall(without_comments(read(path))))
        for old in sorted(words & table.keys()):
            if table[old] in words:
                print(f"look: {path} has {old} and {table[old]}")


def write(path, text, check):
    if text != read(path):
        print(("would turn " if check else "turned ") + path)
        if not check:
            with open(path, "w", encoding="utf-8") as file:
                file.write(text)


def main(argv):
    check = "--check" in argv
    table = declared()
    fall_together(table)
    texts = {}
    for path in sorted(glob.glob("crates/**/*.antt", recursive=True)):
        texts[path] = turn_code(read(path), table, "--")
    for path in sorted(glob.glob("crates/**/*.rt", recursive=True)):
        texts[path] = turn_code(read(path), table, "//")
    for path in sorted(glob.glob("crates/*/must-fail/*.edit")):
        texts[path] = turn_code(read(path), edits_too(table), "#")
    for path, text in texts.items():
        write(path, text, check)
    for path in PAGES:
        write(path, turn_page(read(path), table), check)
    return 0


def edits_too(table):
    """port.py turns no edit, so one has names besides that port.py turned elsewhere."""
    known = set()
    for path in lemma_files():
        known.update(DECLARES.findall(without_comments(read(path))))
    words = set()
    for path in glob.glob("crates/*/must-fail/*.edit"):
        words.update(CAMEL.findall(read(path)))
    return {**{w: snake(w) for w in words if snake(w) in known}, **table}


if __name__ == "__main__":
    raise SystemExit(main(sys.argv[1:]))

#!/usr/bin/env python3
"""Respells the repository's own definitions and lemmas, at the top of a checkout: in specs/, proofs/, src/ and must-fail/,
and between backticks in README.md and docs/.

Words become snake case; names that begin with a capital keep their letters. Names from source code or the standard
library, names that the toolchain makes, texts in quotes and plain words of comments stay. `--check` only prints the
table, and which new names were there before.
"""
import glob
import re
import sys

WORD = re.compile(r"[A-Za-z_][\w'\-]*[\w']|[A-Za-z_]")
QUOTED = re.compile(r'"(?:\\.|[^"\\\n])*"')
DECLARED = re.compile(r"\s*(?:[|]\s*)?(?:(?:abbrev|unfoldable|pub|private|mutual)\s+)*([A-Za-z_][\w'\-]*)(?:\s*,\s*[A-Za-z_][\w'\-]*)*\s+:(?:\s|$)")
BOUND = re.compile(r"[({]([^(){}:]*?) : ")
LET = re.compile(r"\s*let\s+([A-Za-z_][\w'\-]*)\s")
ANSWER = re.compile(r"\s*(?:abbrev\s+)?(?:pub\s+)?([A-Za-z_][\w'\-]*)\s*:\s*goal\.")
INNER_CAPITAL = re.compile(r"[a-z][A-Z]")
# what would fall together with another name
BY_HAND = {
    "all-numbered": "numbers_all",
    "arguments-readable": "arguments_are_readable",
    "others-readable": "others_are_readable",
    "at-bar": "at_a_bar",
    "at-closing": "at_a_closing",
    "at-comma": "at_a_comma",
    "at-empty": "at_an_empty",
    "at-neck": "at_a_neck",
    "at-operand": "at_an_operand",
    "at-stop": "at_a_stop",
    "empty-list": "empty_brackets",
    "head-text": "text_of_head",
    "in-quote": "inside_a_quote",
    "in-run": "inside_a_run",
    "one-step": "one_step_at_most",
    "open-ended": "is_open_ended",
    "query-from": "query_fits_from",
    "quote-open": "open_quote",
    "at_right": "at_a_right",
    "run-from": "run_from_to",
    "with-one": "with_argument",
}


def read(path):
    with open(path, encoding="utf-8") as file:
        return file.read()


def change(path, turned):
    if turned != read(path):
        with open(path, "w", encoding="utf-8") as file:
            file.write(turned)


def antt_files():
    return sorted(glob.glob("crates/*/specs/**/*.antt", recursive=True) + glob.glob("crates/*/proofs/**/*.antt", recursive=True))


def source_files():
    return sorted(glob.glob("crates/*/src/**/*.rt", recursive=True))


def snake(word):
    """`goalForms` as `goal_forms`."""
    if not word[0].islower() and word[0] != "_":
        return word
    return re.sub(r"(?<=[a-z0-9'])([A-Z])(?=[a-z0-9'\-]|$)", lambda m: "_" + m[1].lower(), word)


def code_of(line):
    return re.sub(r"--.*", "", QUOTED.sub('""', line))


def declared_names():
    """The names that the repository gives, and those that answer a goal and so are the toolchain's."""
    given, made = set(), set()
    for path in antt_files():
        for line in map(code_of, read(path).split("\n")):
            answer = ANSWER.match(line)
            if answer:
                made.add(answer[1])
                continue
            given.update(m[1] for m in (DECLARED.match(line), LET.match(line)) if m)
            given.update(w for m in BOUND.finditer(line) for w in m[1].split() if WORD.fullmatch(w))
    return given - made


def library_names():
    words = set()
    for path in antt_files() + source_files():
        for items in re.findall(r"Rattle\.std\.[\w.]*\.\{([^}]*)\}", read(path)):
            words.update(items.replace(",", " ").split())
    return words


def table():
    new = {name: BY_HAND.get(name, snake(name.replace("-", "_"))) for name in declared_names() - library_names()}
    return {old: name for old, name in new.items() if old != name}


def turn(text, rows):
    """A name behind `goal.`, `c.`, `w.` or `l.` is the toolchain's."""
    return WORD.sub(lambda m: m[0] if re.search(r"\b(goal|c|w|l)\.$", text[: m.start()]) else rows.get(m[0], m[0]), text)


def split_comment(line, mark):
    at = 0
    while at < len(line):
        quoted = QUOTED.match(line, at)
        if quoted:
            at = quoted.end()
        elif line.startswith(mark, at) and (mark == "//" or at == 0 or line[at - 1].isspace()):
            return line[:at], line[at:]
        else:
            at += 1
    return line, ""


def turn_line(line, rows, inner, mark):
    code, comment = split_comment(line, mark)
    pieces, at = [], 0
    for quoted in QUOTED.finditer(code):
        pieces += [turn(code[at : quoted.start()], rows), quoted[0]]
        at = quoted.end()
    return "".join(pieces) + turn(code[at:], rows) + turn(comment, inner)


def respell_aliases(path):
    """A name that a file gives by `as`: `a-space` is `a_space` in that file."""
    text = read(path)
    given = set(re.findall(r" as ([a-z]+(?:-[a-z]+)+)", text))
    change(path, WORD.sub(lambda m: m[0].replace("-", "_") if m[0] in given else m[0], text))


def main():
    rows = table()
    if "--check" in sys.argv:
        before = {w for path in antt_files() for line in read(path).split("\n") for w in WORD.findall(code_of(line))}
        for old, new in sorted(rows.items()):
            print(old, "->", new, "(also there)" if new in before or list(rows.values()).count(new) > 1 else "")
        return
    inner = {old: new for old, new in rows.items() if INNER_CAPITAL.search(old)}
    for path in antt_files() + source_files() + glob.glob("crates/*/must-fail/*.edit"):
        text = read(path)
        mark = "--" if ".antt" in (text.split("\n")[0] if path.endswith(".edit") else path) else "//"
        change(path, "\n".join(turn_line(line, rows, inner, mark) for line in text.split("\n")))
    for path in ["README.md"] + glob.glob("docs/*.md"):
        change(path, re.sub(r"`[^`\n]+`", lambda m: turn(m[0], inner), read(path)))
    for path in antt_files() + source_files():
        respell_aliases(path)


main()

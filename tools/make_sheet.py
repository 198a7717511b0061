#!/usr/bin/env python3
"""Turns a readable grammar (grammar.txt) into a grammar sheet (grammar.bin).

    tools/make_sheet.py samples/house/grammar.txt             writes samples/house/grammar.bin
    tools/make_sheet.py samples/house/grammar.txt other.bin   writes other.bin

samples/house/grammar.txt explains the notation in its first lines, and docs/FORMATS.md the bytes. What breaks a rule of
docs/RULES.md is refused with the line it stands in, and nothing is written.
"""
import sys
from pathlib import Path

MOST_TERMINALS, MOST_NONTERMINALS, MOST_RULES, MOST_RIGHT, MOST_LETTERS = 40, 24, 64, 7, 12
HEADER, RULE = 12, 9


class Refused(Exception):
    """A line that breaks a rule, and what is wrong there. Line 0 is the file as a whole."""


def read(text):
    """The terminals, the nonterminals and the rules, each with its line: name -> line, name -> line, [(line, left, right)]."""
    terminals, nonterminals, rules = {}, {}, []
    for line, whole in enumerate(text.splitlines(), 1):
        words = whole.split("#")[0].split()
        if not words:
            continue
        if words[0] in ("terminals:", "nonterminals:"):
            for name in words[1:]:
                if name in terminals or name in nonterminals:
                    raise Refused(line, f"`{name}` is declared twice")
                (terminals if words[0] == "terminals:" else nonterminals)[name] = line
        elif words[1:2] == ["->"]:
            rules.append((line, words[0], words[2:]))
        else:
            raise Refused(line, "this is neither `terminals: ..` nor `nonterminals: ..` nor a rule `left -> right ..`")
    return terminals, nonterminals, rules


def check_counts(terminals, nonterminals, rules):
    for what, count, low, high in (
        ("terminals", len(terminals), 1, MOST_TERMINALS),
        ("nonterminals", len(nonterminals), 2, MOST_NONTERMINALS),
        ("rules", len(rules), 2, MOST_RULES),
    ):
        if not low <= count <= high:
            raise Refused(0, f"there are {count} {what}, and there must be {low} to {high}")


def check_spellings(terminals):
    for number, (name, line) in enumerate(terminals.items()):
        if (number == 0) != (name == "amount"):
            raise Refused(line, "the first terminal, and no other, is `amount`")
        if len(name) > MOST_LETTERS:
            raise Refused(line, f"`{name}` has more than {MOST_LETTERS} letters")
        if not all(33 <= ord(letter) <= 126 for letter in name):
            raise Refused(line, f"`{name}` has a letter that is no visible character of ASCII")
        if name.isdigit():
            raise Refused(line, f"`{name}` is all digits, and would read as an amount")


def check_rules(terminals, nonterminals, rules):
    goal = next(iter(nonterminals))
    for number, (line, left, right) in enumerate(rules):
        if left not in nonterminals:
            raise Refused(line, f"`{left}` stands on the left and is no nonterminal")
        for name in right:
            if name not in terminals and name not in nonterminals:
                raise Refused(line, f"`{name}` is not declared")
        if len(right) > MOST_RIGHT:
            raise Refused(line, f"more than {MOST_RIGHT} symbols stand on the right")
        if number == 0 and (left != goal or len(right) != 1 or right[0] not in nonterminals):
            raise Refused(line, f"the first rule is `{goal} -> ` and one nonterminal")
        if goal in right or (number > 0 and left == goal):
            raise Refused(line, f"the goal `{goal}` stands on the left of the first rule and nowhere else")


def check_productive(terminals, nonterminals, rules):
    derives = set(terminals)
    for _ in nonterminals:
        derives |= {left for _, left, right in rules if derives.issuperset(right)}
    for name, line in nonterminals.items():
        if name not in derives:
            raise Refused(line, f"`{name}` derives no list of terminals: each of its rules needs a symbol that derives none")


def sheet(terminals, nonterminals, rules):
    number = {name: place for place, name in enumerate([*terminals, *nonterminals])}
    body = b""
    for _, left, right in rules:
        body += bytes([number[left], len(right), *(number[name] for name in right)]).ljust(RULE, b"\xff")
    for name in terminals:
        spelling = b"" if name == "amount" else name.encode("ascii")
        body += bytes([len(spelling)]) + spelling
    header = HEADER + len(body), len(terminals), len(nonterminals), len(rules), HEADER, HEADER + RULE * len(rules)
    return b"".join(each.to_bytes(2, "big") for each in header) + body


def made(text):
    """The bytes of the sheet that the text says."""
    terminals, nonterminals, rules = read(text)
    check_counts(terminals, nonterminals, rules)
    check_spellings(terminals)
    check_rules(terminals, nonterminals, rules)
    check_productive(terminals, nonterminals, rules)
    return sheet(terminals, nonterminals, rules)


def main(words):
    if not 1 <= len(words) <= 2 or words[0].startswith("-"):
        sys.exit(__doc__.strip())
    source = Path(words[0])
    target = Path(words[1]) if len(words) == 2 else source.with_suffix(".bin")
    try:
        written = made(source.read_text(encoding="utf-8"))
        target.write_bytes(written)
    except Refused as refused:
        line, what = refused.args
        sys.exit(f"{source}:{line}: {what}" if line else f"{source}: {what}")
    except (OSError, UnicodeDecodeError) as error:
        sys.exit(f"{source}: {error}")
    print(f"{target}: {len(written)} bytes")


if __name__ == "__main__":
    main(sys.argv[1:])

#!/usr/bin/env python3
"""Brings this repository's own definitions and lemmas to snake case: `rule-count` becomes `rule_count`.

    python3 tools/respell.py          once, at the top of the repository, right after the port's own script
    python3 tools/respell.py --list   tells the names alone

It renames what the repository declares in specs/ and proofs/: definitions, lemmas, fields, constructors, and the names that a
lemma binds. Names that a library declares, names that Rattle makes for goals and steps, and text in strings stay.
"""
import glob
import re
import sys

WORD = r"[^\s(){}\[\].,;:λ\"`|]+"
KEBAB = re.compile(r"(?<![\w'-])([A-Za-z_][\w']*(?:-[\w']+)+)(?![\w'-])")
ROOTS = {"c", "l", "goal", "given"}
PROSE = {"one-to-one"}
# Names that would fall together with a function of src/ or a library's word in the same file.
APART = {"bit-or": "bit_of_or", "terminal-of": "spelled_terminal", "rule-lines": "lines_of_rules", "table-text": "text_of_table"}
MADE = re.compile(r"in-[A-Z]|(?:if|then|else|loop|returns|decreases|bounds|overflow|invariant)-|.*-(?:requires|preserved|init)$")


def lemma_files():
    return sorted(glob.glob("crates/*/specs/*.antt") + glob.glob("crates/*/proofs/*.antt"))


def answer_files():
    return sorted(glob.glob("crates/*/proofs/*/**/*.antt", recursive=True))


def foreign():
    """Names that are imported from a library."""
    own = {p.split("/")[1] for p in glob.glob("crates/*")}
    names = set()
    for path in lemma_files() + answer_files() + glob.glob("crates/*/src/*.rt"):
        for line in open(path).read().split("\n"):
            m = re.match(r"\s*(?:ghost )?use ([\w.«»-]+)\.\{([^}]*)\}", line)
            if not m:
                continue
            parts = m.group(1).split(".")
            if parts[0] == "Rattle" and len(parts) > 1 and parts[1] in own:
                continue
            for item in m.group(2).split(","):
                names.update(KEBAB.findall(item))
    return names


def made(text):
    """Names of goals that a file answers."""
    return set(re.findall(r"^(?:abbrev )?(?:pub )?(\S+) : (?:goal|given)\.", text, re.M))


def declared():
    """Names that are declared in specs/ and proofs/."""
    names = set()
    for path in lemma_files() + answer_files():
        text = open(path).read()
        skip = made(text) if path.count("/") > 3 else set()
        code = re.sub(r"--.*", "", text)
        found = set()
        for m in re.finditer(r"(?:^|[({;,]|let |λ |in |where )\s*((?:(?:pub|abbrev|unfoldable|record|data|opaque)\s+)*)([^(){}:;=.,\[\]]+?)\s*(?:(?:\([^()]*(?:\([^()]*\)[^()]*)*\)|\{[^{}]*\})\s*)*(?::(?!:)|=|,|\.|\))", code, re.M):
            found.update(KEBAB.findall(m.group(2)))
        for m in re.finditer(r"λ ([^.]*)\.", code):
            found.update(KEBAB.findall(m.group(1)))
        names |= found - skip
    return names


def main():
    lib = foreign()
    names = {n for n in declared() if n not in lib and not MADE.match(n)}
    if "--list" in sys.argv:
        print("\n".join(sorted(names)))
        return
    turned = {n: APART.get(n, n.replace("-", "_")) for n in names}
    tokens = set()
    for path in lemma_files() + answer_files() + glob.glob("crates/*/src/*.rt"):
        tokens |= set(re.findall(r"[A-Za-z_][\w'-]*", open(path).read()))
    for old, new in sorted(turned.items()):
        if new in tokens:
            print(f"respell: look: {old} falls together with {new}")

    def respell(text, skip=frozenset(), answers=False):
        def put(m):
            name = m.group(1)
            if name in skip or name not in turned or name in PROSE:
                return name
            if answers:
                root = re.search(r"(?<![\w'.-])([\w'-]+)\.$", text[: m.start()])
                if root and root.group(1) in ROOTS:
                    return name
            return turned[name]

        return KEBAB.sub(put, text)

    for path in lemma_files() + answer_files():
        text = open(path).read()
        inside = path.count("/") > 3
        out = "\n".join(respell(line, made(text) if inside else frozenset(), inside) for line in text.split("\n"))
        if out != text:
            open(path, "w").write(out)
    for path in sorted(glob.glob("crates/*/src/*.rt")):
        text = open(path).read()
        lines = []
        for line in text.split("\n"):
            if line.lstrip().startswith("//"):
                lines.append(line)
                continue
            lines.append("".join(part if part.startswith('"') else respell(part) for part in re.split(r'("(?:[^"\\]|\\.)*")', line)))
        out = "\n".join(lines)
        if out != text:
            open(path, "w").write(out)
    for path in sorted(glob.glob("crates/*/must-fail/*.edit")):
        text = open(path).read()
        out = respell(text) if "file: specs/" in text or "file: proofs/" in text else text
        if out != text:
            open(path, "w").write(out)
    for path in sorted(glob.glob("docs/*.md")):
        text = open(path).read()
        out = re.sub(r"`[^`\n]*`", lambda m: respell(m.group(0)), text)
        if out != text:
            open(path, "w").write(out)


main()

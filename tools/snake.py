#!/usr/bin/env python3
"""Brings the repository's own definitions and lemmas to snake case: halfRounded and half-rounded are half_rounded.

    tools/snake.py [--list]

Run once at the top, after the kit's port.py. Types, modules and variants keep their camel case, functions of src/ and the names that
Rattle makes of them keep theirs. Two names that would fall together are told apart by TAKEN. What is in src/ is renamed in clauses
and ghost items alone, what is in documents between backquotes and in blocks of antt alone."""
import glob
import re
import sys

WORD = re.compile(r"(?<![\w'◌-])[A-Za-z_][\w']*(?:-[\w']+)*(?![\w'◌])")
DECLARED = re.compile(r"^ *(?:(?:unfoldable|abbrev|opaque|pub|private|rec|\|) +)*([a-z][\w']*(?:-[\w']+)*)(?: +\{[^}]*\})* *:(?= |$)", re.M)
BOUND = re.compile(r"\blet +([a-z][\w']*(?:-[\w']+)*) *[:=]")
# Names of laws that would fall together with what they are about.
TAKEN = {name: name.replace("-", "_") + "_law" for name in """
allocated-flag answer-room at-host at-port bad-keys batch-act body-length call-at free-blocks freed-flags gone-or-kept has-pointers is-freed is-kept
is-pointers is-sound is-spared is-went judge-sound key-opens kind-number least-tests link-right lowest-waiting marked-below nearest-run next-turn
not-from not-rent not-sweep only-from opens-same other-mode out-of-reach out-of-room parsed-bad pointer-right same-info some-window spares-tests
starts-in still-allocated still-outside times-left times-right waiting-flag count_low last_taken run_in same_flags some_key take-all
""".split()}


def snake(name: str) -> str:
    return TAKEN.get(name) or re.sub(r"(?<=[a-z0-9'])([A-Z])|(?<=[A-Z])([A-Z])(?=[a-z])", lambda m: "_" + m[0], name.replace("-", "_")).lower()


def read(path: str) -> str:
    with open(path, encoding="utf-8") as file:
        return file.read()


def ours() -> dict[str, str]:
    """Every name that the repository declares and that is not yet in snake case."""
    found: set[str] = set()
    for path in glob.glob("crates/*/specs/**/*.antt", recursive=True) + glob.glob("crates/*/proofs/**/*.antt", recursive=True):
        text = re.sub(r"--.*", "", read(path))
        of_a_function = path.endswith(("/Proof.antt", "/Answers.antt", "/Invariants.antt"))
        for match in DECLARED.finditer(text):
            rest = text[match.end():].lstrip()
            if not (of_a_function and rest.startswith(("tie.", "goal."))):
                found.add(match[1])
        found |= set(BOUND.findall(text))
    return {name: snake(name) for name in found if snake(name) != name}


def renamed(text: str, names: dict[str, str]) -> str:
    return WORD.sub(lambda m: names.get(m[0], m[0]), text)


def clauses(text: str, names: dict[str, str]) -> str:
    """Only the ghost items and the braces of clauses."""
    out, at = [], 0
    for match in re.finditer(r"^ *ghost use [^;]*;|\b(?:requires|ensures|ghost \w+:|ghost invariant)\*?(?: \w+)? *\{", text, re.M):
        if match.start() < at:
            continue
        end = match.end()
        if text[end - 1] == "{" and "ghost use" not in match[0]:
            deep = 1
            while deep:
                deep += {"{": 1, "}": -1}.get(text[end], 0)
                end += 1
        out += [text[at:match.start()], renamed(text[match.start():end], names)]
        at = end
    return "".join(out) + text[at:]


def edited(text: str, names: dict[str, str]) -> str:
    """Of a must-fail edit the changes of specs and proofs, and its headings."""
    out, path = [], ""
    for line in text.split("\n"):
        if line.startswith("file: "):
            path = line[6:]
        elif line.startswith("#") and ", refused by " in line:
            head, tail = line.split(", refused by ", 1)
            theorem, colon, why = tail.partition(":")
            line = f"{head}, refused by {names.get(theorem, theorem)}{colon}{why}"
        elif not path.startswith("src/") and re.match("(old|new): ", line):
            line = line[:5] + renamed(line[5:], names)
        out.append(line)
    return "\n".join(out)


def document(text: str, names: dict[str, str]) -> str:
    parts = re.split(r"(```antt\n.*?```|`[^`\n]+`)", text, flags=re.S)
    return "".join(renamed(part, names) if part.startswith("`") and not re.match(r"`[\w./-]*/[\w./-]*`$|`\./", part) else part for part in parts)


def main(arguments: list[str]) -> int:
    names = ours()
    if arguments == ["--list"]:
        for name, new in sorted(names.items()):
            print(name, new)
        return 0
    turns = [(".antt", renamed, ["crates/*/specs/**/*.antt", "crates/*/proofs/**/*.antt"]), (".rt", clauses, ["crates/*/src/**/*.rt"]),
             (".edit", edited, ["crates/*/must-fail/*.edit"]), (".md", document, ["README.md", "docs/**/*.md"])]
    for _, turn, places in turns:
        for place in places:
            for path in glob.glob(place, recursive=True):
                old = read(path)
                new = turn(old, names)
                if new != old:
                    with open(path, "w", encoding="utf-8") as file:
                        file.write(new)
    return 0


if __name__ == "__main__":
    sys.exit(main(sys.argv[1:]))

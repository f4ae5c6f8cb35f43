#!/usr/bin/env python3
"""Turns clauses that pass a lent table whole, as one word for what it holds at the entry and at the exit: `flags` is (kept flags.now) where it is
lent shared, (changed flags.old flags.new) where it is lent to be changed; in a `requires` it is what it holds then. Run once at the top."""
import glob
import re

WORD = r"(?<![\w.'])(%s)(?![\w'.])"


def closing(text: str, at: int, left: str, right: str) -> int:
    deep = 0
    for k in range(at, len(text)):
        deep += (text[k] == left) - (text[k] == right)
        if not deep:
            return k
    raise ValueError(text[at:at + 80])


def turned(text: str) -> str:
    out, at = [], 0
    for match in re.finditer(r"\bfn \w+(?:<[^>]*>)?\(", text):
        end = closing(text, match.end() - 1, "(", ")")
        lent = {name: bool(mut) for name, mut in re.findall(r"(\w+): &(?:'\w+ )?(mut )?", text[match.end():end])}
        body = text.index("\n{", end) if "\n{" in text[end:] else len(text)
        body2 = re.search(r"\n\s*\{\n", text[end:])
        body = end + body2.start() if body2 else body
        for clause in re.finditer(r"\b(requires|ensures)\*?(?: \w+)? \{", text[end:body]):
            start, stop = end + clause.end(), closing(text, end + clause.end() - 1, "{", "}")
            words = "|".join(lent)
            if not words:
                continue

            def whole(m: re.Match[str]) -> str:
                name = m[1]
                if clause[1] == "requires":
                    return f"{name}.old" if lent[name] else f"{name}.now"
                return f"(changed {name}.old {name}.new)" if lent[name] else f"(kept {name}.now)"

            out += [text[at:start], re.sub(WORD % words, whole, text[start:stop])]
            at = stop
    new = "".join(out) + text[at:]
    needs = [word for word in ("kept", "changed") if re.search(rf"\({word} ", new)]
    if needs and new != text:
        found = re.search(r"ghost use Rattle\.card\.specs\.Lent\.\{([^}]*)\};", new)
        if found:
            names = found[1].split(", ") + [word for word in needs if word not in found[1].split(", ")]
            new = new.replace(found[0], f"ghost use Rattle.card.specs.Lent.{{{', '.join(names)}}};")
        else:
            first = re.search(r"^ghost use Rattle\.(?!std)", new, re.M)
            at = first.start() if first else new.index("ghost use")
            new = new[:at] + f"ghost use Rattle.card.specs.Lent.{{{', '.join(needs)}}};\n" + new[at:]
    return new


for path in glob.glob("crates/*/src/*.rt"):
    with open(path, encoding="utf-8") as file:
        old = file.read()
    new = turned(old)
    if new != old:
        with open(path, "w", encoding="utf-8") as file:
            file.write(new)
        print(path)

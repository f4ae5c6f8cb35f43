#!/usr/bin/env python3
"""Draws docs/reach.svg: who reaches what on the card of sessions/observatories.session, with a window open and shut.

    docs/picture.py             writes the picture
    docs/picture.py --check     exit status 1 if the stored picture is another

What is within reach is worked out from the card by the four clauses of document 01, "Within reach".
"""
from __future__ import annotations

import sys
from pathlib import Path
from typing import NamedTuple

PICTURE = Path(__file__).resolve().parent / "reach.svg"


# ---- the card

class Key(NamedTuple):
    owner: str
    use: str


class Card(NamedTuple):
    """What reach depends on: the allocated blocks, named; keys and window ends, first for reading; pointers."""

    roots: int
    time: int
    blocks: dict[int, str]
    keys: dict[int, tuple[Key, Key]]
    windows: dict[int, tuple[int, int]]
    pointers: list[tuple[int, int]]


FIRST = (Key("first", "read"), Key("first", "write"))
SECOND = (Key("second", "read"), Key("second", "write"))
# After call 11 of the session: the first has written its files, and its WRITE of 3,600 s holds its directory open.
OPEN = Card(
    roots=1,
    time=0,
    blocks={0: "root", 1: "first's directory", 2: "second's directory", 3: "first's file", 4: "first's file"},
    keys={1: FIRST, 2: SECOND, 4: FIRST},
    windows={1: (0, 3600)},
    pointers=[(0, 1), (0, 2), (1, 3), (1, 4)],
)
# After call 12, FORCE 1.
SHUT = OPEN._replace(windows={})


def sealed(card: Card, presented: tuple[Key, ...], block: int) -> bool:
    """Carries a read and a write key, neither presented. A block here has both keys or none."""
    return block in card.keys and not any(key in presented for key in card.keys[block])


def within_reach(card: Card, presented: tuple[Key, ...]) -> set[int]:
    """The least set of allocated blocks that the four clauses give."""
    def by_itself(block: int) -> bool:
        unsealed_root = block < card.roots and not sealed(card, presented, block)
        by_key = any(key in presented for key in card.keys.get(block, ()))
        open_window = any(card.time < end for end in card.windows.get(block, ()))
        return unsealed_root or by_key or open_window

    targets: dict[int, list[int]] = {}
    for source, destination in card.pointers:
        targets.setdefault(source, []).append(destination)
    reached: set[int] = set()
    waiting = [block for block in card.blocks if by_itself(block)]
    while waiting:
        block = waiting.pop()
        if block not in reached:
            reached.add(block)
            waiting += [target for target in targets.get(block, []) if not sealed(card, presented, target)]
    return reached


def fill_of(card: Card, block: int) -> str:
    """Who reaches the block: everyone, one of the two alone, or nobody by these keys."""
    for fill, presented in (("everyone", ()), ("first", FIRST), ("second", SECOND)):
        if block in within_reach(card, presented):
            return fill
    return "nobody"


# ---- the drawing

WIDTH, HEIGHT = 975, 540
BOX, TALL = 148, 70
# Where a block's box stands in a panel.
PLACES = {0: (155, 60), 1: (80, 170), 2: (305, 170), 3: (0, 290), 4: (160, 290)}
COLOURS = {"everyone": "#ffffff", "first": "#9ec5e8", "second": "#f2b27a"}
STYLE = """text{font:13px sans-serif;fill:#000}.head{font-weight:bold;font-size:14px}.block{font-weight:bold}
.box{stroke:#000;stroke-width:1.5}.inner{fill:#fff}.sealed{fill:none;stroke:#000;stroke-width:1.5}
.window{fill:none;stroke:#000;stroke-width:3;stroke-dasharray:8 5}.pointer{stroke:#000;stroke-width:1.5;marker-end:url(#head)}"""
DEFINITIONS = f"""<defs>
<pattern id="everyone" width="8" height="8" patternUnits="userSpaceOnUse"><rect width="8" height="8" fill="{COLOURS["everyone"]}"/></pattern>
<pattern id="first" width="8" height="8" patternUnits="userSpaceOnUse" patternTransform="rotate(45)">
<rect width="8" height="8" fill="{COLOURS["first"]}"/><rect width="2" height="8" fill="#123f66"/></pattern>
<pattern id="second" width="8" height="8" patternUnits="userSpaceOnUse">
<rect width="8" height="8" fill="{COLOURS["second"]}"/><circle cx="4" cy="4" r="2" fill="#6b3000"/></pattern>
<marker id="head" markerWidth="9" markerHeight="8" refX="8" refY="4" orient="auto"><path d="M0 0L9 4L0 8z"/></marker>
</defs>"""


def text(x: float, y: float, words: str, kind: str = "", anchor: str = "start") -> str:
    return f'<text x="{x:g}" y="{y:g}" class="{kind}" text-anchor="{anchor}">{words}</text>'


def rectangle(x: float, y: float, width: float, height: float, rest: str) -> str:
    return f'<rect x="{x:g}" y="{y:g}" width="{width:g}" height="{height:g}" {rest}/>'


def frame(x: float, y: float, width: float, height: float, fill: str, is_sealed: bool, is_open: bool) -> list[str]:
    """A box filled by who reaches it: a second line around it for its keys, a broken one for an open window."""
    parts = [rectangle(x, y, width, height, f'class="box" fill="url(#{fill})"')]
    if is_sealed:
        parts.append(rectangle(x - 4, y - 4, width + 8, height + 8, 'class="sealed"'))
    if is_open:
        parts.append(rectangle(x - 10, y - 10, width + 20, height + 20, 'class="window"'))
    return parts


def block_parts(card: Card, block: int, x: float, y: float) -> list[str]:
    has_keys = block in card.keys
    is_open = any(card.time < end for end in card.windows.get(block, ()))
    keys = f"keys of the {card.keys[block][0].owner}" if has_keys else "no keys"
    middle = x + BOX / 2
    return [
        *frame(x, y, BOX, TALL, fill_of(card, block), has_keys, is_open),
        rectangle(x + 9, y + 9, BOX - 18, TALL - 18, 'class="inner"'),
        text(middle, y + 24, f"block {block}", "block", "middle"),
        text(middle, y + 40, card.blocks[block], "", "middle"),
        text(middle, y + 56, keys, "", "middle"),
    ]


def pointer_part(card: Card, source: int, destination: int, left: float) -> str:
    (x, y), (u, v) = PLACES[source], PLACES[destination]
    gap = 12 if any(card.windows.get(destination, ())) else 6
    ends = (left + x + BOX / 2, y + TALL, left + u + BOX / 2, v - gap)
    return '<line x1="{:g}" y1="{:g}" x2="{:g}" y2="{:g}" class="pointer"/>'.format(*ends)


def panel(card: Card, left: float, head: str, below: str) -> list[str]:
    parts = [text(left, 22, head, "head"), text(left, 40, below)]
    parts += [pointer_part(card, source, destination, left) for source, destination in card.pointers]
    for block, (x, y) in PLACES.items():
        parts += block_parts(card, block, left + x, y)
    return parts


def legend(left: float, top: float) -> list[str]:
    entries = [
        ("everyone", False, False, "within reach of every host, whatever keys it presents"),
        ("first", False, False, "within reach only of one who presents a key of the first observatory; hidden from all others"),
        ("second", False, False, "within reach only of one who presents a key of the second observatory; hidden from all others"),
        ("everyone", True, False, "second line: the block has a read key and a write key, and is sealed unless one of them is presented"),
        ("everyone", False, True, "broken line: a window of the block is open; until its end a reference to the block opens what it points to and has no key"),
    ]
    parts = []
    for place, (fill, is_sealed, is_open, words) in enumerate(entries):
        y = top + 29 * place
        parts += [*frame(left + 10, y, 26, 8, fill, is_sealed, is_open), text(left + 60, y + 9, words)]
    return parts


def drawing() -> str:
    return "\n".join([
        f'<svg xmlns="http://www.w3.org/2000/svg" width="{WIDTH}" height="{HEIGHT}" viewBox="0 0 {WIDTH} {HEIGHT}" role="img">',
        "<title>Which blocks of a card are within reach of whom, with a window open and with all windows shut</title>",
        f"<style>{STYLE}</style>",
        DEFINITIONS,
        rectangle(0, 0, WIDTH, HEIGHT, 'fill="#ffffff"'),
        *panel(OPEN, 15, "The first's directory is open for writing", "its WRITE opened a window of 3,600 s, and T is 0"),
        *panel(SHUT, 505, "Its windows are shut", "by FORCE 1, or by the clock at T 3,600"),
        *legend(15, 390),
        "</svg>",
        "",
    ])


def main(arguments: list[str]) -> int:
    if arguments == ["--check"]:
        same = PICTURE.exists() and PICTURE.read_text(encoding="utf-8") == drawing()
        print("docs/reach.svg is what docs/picture.py draws" if same else "docs/reach.svg is not what docs/picture.py draws")
        return 0 if same else 1
    if arguments:
        print(__doc__, file=sys.stderr)
        return 2
    PICTURE.write_text(drawing(), encoding="utf-8")
    return 0


sys.exit(main(sys.argv[1:]))

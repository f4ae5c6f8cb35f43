"""Session texts, their call records and the player's lines, after document 01, "Call records and the player", and the requests."""
from __future__ import annotations

import enum
import os
import re
import subprocess
import sys
from pathlib import Path
from typing import Callable, NamedTuple, Optional

NO_HINT = 65_535
DATA = 512
SERVICE = 128


class Problem(enum.Enum):
    """What can be wrong in a session text. `sessions/check` provokes each of them."""

    CALL = "expected a call, 'service' or 'bytes', found {found}"
    SERVICE = "expected a call that has a service form, found {found}"
    OPERAND = "expected {what}, found {found}"
    RANGE = "expected {what} of at most {most}, found {found}"
    COMMA = "expected ',' and {what}, found {found}"
    END = "expected the end of the line, found {found}"
    BYTES = "expected bytes as pairs of hex digits, as in 00ff or 00*16, found {found}"
    LONG = "expected at most 512 bytes of data, found {found}"
    QUOTE = "expected a closing '\"'"
    ANSWER = "expected an answer's numbers after '->', found {found}"
    ENCODING = "expected UTF-8 text"


class TextError(Exception):
    """A fault of a session text; `place` is its file and line."""

    def __init__(self, problem: Problem, **parts: object) -> None:
        self.problem = problem
        self.place = ""
        super().__init__(problem.value.format(**parts))

    def __str__(self) -> str:
        return f"{self.place}: {self.args[0]}"


# ---- the words of a line

WORD = re.compile(r'\s*(?:#.*|("[^"]*"|"|->|,|[^\s,#"]+))?')
NUMBER = re.compile(r"[0-9]{1,40}|0x[0-9A-Fa-f]{1,40}")
ANSWER = re.compile(r"[0-9]{1,20}")
GROUP = re.compile(r"((?:[0-9A-Fa-f]{2})+)(?:\*([0-9]{1,40}))?")


class Words:
    """The words of a line, taken from the front; the empty word is the end of the line."""

    def __init__(self, line: str) -> None:
        self.line = line
        matches = [match for match in WORD.finditer(line) if match[1]]
        self.words = [match[1] for match in matches]
        self.ends = [match.end() for match in matches]
        if '"' in self.words:
            raise TextError(Problem.QUOTE)

    def first(self) -> str:
        return self.words[0] if self.words else ""

    def take(self) -> str:
        return self.words.pop(0) if self.words else ""

    def takes(self, word: str) -> bool:
        """Takes the word if it comes first."""
        return self.first() == word and bool(self.take())

    def taken(self) -> str:
        """The part of the line that is taken."""
        return self.line[:self.ends[-len(self.words) - 1]].strip()

    def fail(self, problem: Problem, **parts: object) -> TextError:
        found = f"'{self.first()}'" if self.words else "the end of the line"
        return TextError(problem, found=found, **parts)

    def number(self, bits: int, what: str) -> int:
        word = self.first()
        if not NUMBER.fullmatch(word):
            raise self.fail(Problem.OPERAND, what=what)
        value = int(word, 16) if word.startswith("0x") else int(word)
        if value >> bits:
            raise self.fail(Problem.RANGE, what=what, most=(1 << bits) - 1)
        self.take()
        return value

    def group(self) -> bytes:
        """Bytes in hex digits, such as 0a, 0001 or 00*16."""
        match = GROUP.fullmatch(self.first())
        if not match:
            raise self.fail(Problem.BYTES)
        times = int(match[2] or 1)
        if times > 65_535:
            raise self.fail(Problem.RANGE, what="a number of times", most=65_535)
        self.take()
        return bytes.fromhex(match[1]) * times

    def groups(self) -> bytes:
        data = self.group()
        while self.first() not in ("", ",", "->"):
            data += self.group()
        return data


# ---- operands

class Field(NamedTuple):
    """One operand: what to write for it, the bytes it takes in a record, and how to read it."""

    what: str
    size: int
    read: Callable[[Words], bytes]


def number_field(what: str, size: int) -> Field:
    return Field(what, size, lambda words: words.number(8 * size, what).to_bytes(size, "big"))


def read_hint(words: Words) -> bytes:
    value = NO_HINT if words.takes("none") else words.number(16, HINT.what)
    return value.to_bytes(2, "big")


def read_mode(words: Words) -> bytes:
    for value, name in enumerate(("read", "write")):
        if words.takes(name):
            return bytes([value])
    return bytes([words.number(8, MODE.what)])


def read_key(words: Words) -> bytes:
    if not words.takes("key"):
        raise words.fail(Problem.OPERAND, what=KEY.what)
    return words.number(128, "a key").to_bytes(16, "big")


def read_credential(words: Words) -> bytes:
    if words.takes("nothing"):
        return bytes(17)
    if words.takes("reference"):
        return b"\1" + words.number(16, BLOCK.what).to_bytes(2, "big") + bytes(14)
    if words.first() == "key":
        return b"\2" + read_key(words)
    raise words.fail(Problem.OPERAND, what=CREDENTIAL.what)


def read_new_key(words: Words) -> bytes:
    if words.takes("none"):
        return bytes(17)
    if words.first() == "key":
        return b"\1" + read_key(words)
    raise words.fail(Problem.OPERAND, what=NEW_KEY.what)


def read_data(words: Words) -> bytes:
    if words.takes("fill"):
        return bytes([words.number(8, "a byte")]) * DATA
    if words.takes("hex"):
        data = words.groups()
    elif words.first().startswith('"'):
        data = words.take()[1:-1].encode()
    else:
        raise words.fail(Problem.OPERAND, what=DATA_FIELD.what)
    if len(data) > DATA:
        raise TextError(Problem.LONG, found=len(data))
    return data.ljust(DATA, b"\0")


BLOCK = number_field("a block number", 2)
INTERVAL = number_field("an interval", 4)
COUNT = number_field("a count", 1)
SECONDS = number_field("a number of seconds", 8)
HINT = Field("a hint (a block number or 'none')", 2, read_hint)
MODE = Field("a mode ('read', 'write' or a number)", 1, read_mode)
KEY = Field("a key ('key NUMBER')", 16, read_key)
CREDENTIAL = Field("a credential ('nothing', 'reference BLOCK' or 'key NUMBER')", 17, read_credential)
NEW_KEY = Field("a new key ('none' or 'key NUMBER')", 17, read_new_key)
DATA_FIELD = Field("data ('fill BYTE', 'hex BYTES' or a \"text\")", DATA, read_data)

# The calls by kind at the host port; some also have a service form, 128 higher.
CALLS: dict[str, tuple[int, tuple[Field, ...]]] = {
    "READ": (1, (BLOCK, CREDENTIAL, INTERVAL)),
    "WRITE": (2, (BLOCK, CREDENTIAL, INTERVAL, DATA_FIELD)),
    "ALLOC": (3, (BLOCK, CREDENTIAL, HINT, COUNT)),
    "CREATE": (4, (BLOCK, CREDENTIAL, BLOCK, CREDENTIAL)),
    "DELETE": (5, (BLOCK, CREDENTIAL, BLOCK)),
    "KEY_READ": (6, (BLOCK, CREDENTIAL, NEW_KEY)),
    "RENEW": (7, (MODE, BLOCK, KEY, INTERVAL)),
    "FORCE": (8, (BLOCK,)),
    "FREE": (9, ()),
    "TICK": (10, (SECONDS,)),
    "AUDIT": (11, ()),
    "ALLOC_CONTIG": (12, (BLOCK, CREDENTIAL, HINT, COUNT)),
    "KEY_WRITE": (13, (BLOCK, CREDENTIAL, NEW_KEY)),
    "DELETE_TREE": (14, (BLOCK, CREDENTIAL, BLOCK)),
}
SERVICE_FORMS = {1, 2, 3, 4, 5, 6, 12, 13, 14}


def name_of(kind: int) -> str:
    """The call of a kind at either port; empty where there is no such kind."""
    plain = kind - SERVICE if kind - SERVICE in SERVICE_FORMS else kind
    return next((name for name, (number, _) in CALLS.items() if number == plain), "")


def body_length(kind: int) -> Optional[int]:
    name = name_of(kind)
    return sum(field.size for field in CALLS[name][1]) if name else None


# ---- texts

class Statement(NamedTuple):
    """A line of a session text: its words, its bytes, the answer it expects, if it says one, and the comments above it."""

    line: int
    text: str
    data: bytes
    expected: Optional[list[int]]
    notes: tuple[str, ...] = ()


def read_call(words: Words) -> bytes:
    service = words.takes("service")
    known = words.first() in CALLS
    if service and not (known and CALLS[words.first()][0] in SERVICE_FORMS):
        raise words.fail(Problem.SERVICE)
    if not known:
        raise words.fail(Problem.CALL)
    kind, fields = CALLS[words.take()]
    data = bytes([kind + SERVICE if service else kind])
    for place, field in enumerate(fields):
        if place > 0 and not words.takes(","):
            raise words.fail(Problem.COMMA, what=field.what)
        data += field.read(words)
    return data


def read_expected(words: Words) -> Optional[list[int]]:
    if not words.takes("->"):
        return None
    expected = []
    while words.words or not expected:
        if not ANSWER.fullmatch(words.first()):
            raise words.fail(Problem.ANSWER)
        expected.append(int(words.take()))
    return expected


def decoded(line: bytes) -> str:
    try:
        return line.decode()
    except UnicodeDecodeError:
        raise TextError(Problem.ENCODING) from None


def read_line(number: int, line: bytes) -> Optional[Statement]:
    words = Words(decoded(line))
    if not words.words:
        return None
    data = words.groups() if words.takes("bytes") else read_call(words)
    text = words.taken()
    expected = read_expected(words)
    if words.words:
        raise words.fail(Problem.END)
    return Statement(number, text, data, expected)


def read_text(name: str, text: bytes) -> list[Statement]:
    """The statements of a session text; a TextError says where and what was expected."""
    statements: list[Statement] = []
    notes: list[str] = []
    for number, line in enumerate(text.split(b"\n"), 1):
        try:
            statement = read_line(number, line)
        except TextError as error:
            error.place = f"{name}:{number}"
            raise
        if statement:
            statements.append(statement._replace(notes=tuple(notes)))
            notes = []
        elif line.strip():
            notes.append(line.decode().strip())
    return statements


def read_file(arguments: list[str]) -> list[Statement]:
    """The statements of the file named, or of standard input."""
    if arguments:
        return read_text(arguments[0], Path(arguments[0]).read_bytes())
    return read_text("standard input", sys.stdin.buffer.read())


def records_of(statements: list[Statement]) -> bytes:
    return b"".join(statement.data for statement in statements)


def starts(statements: list[Statement]) -> list[tuple[int, Statement]]:
    """For each record its kind and the statement in which it starts; one that is unknown or cut short is the last."""
    owners = [(byte, statement) for statement in statements for byte in statement.data]
    found, at = [], 0
    while at < len(owners):
        found.append(owners[at])
        length = body_length(owners[at][0])
        if length is None:
            break
        at += 1 + length
    return found


# ---- the player

REPOSITORY = Path(__file__).resolve().parent.parent


def player() -> str:
    return os.environ.get("CARDPLAY") or str(REPOSITORY / "crates" / "cardplay" / "out" / "cardplay")


def play(records: bytes) -> bytes:
    """What the player writes of these records; it always ends with exit status 0."""
    if not os.access(player(), os.X_OK):
        raise FileNotFoundError(f"no player {player()} (make it with: cd crates/cardplay && rt run < stdin)")
    return subprocess.run([player()], input=records, stdout=subprocess.PIPE, check=True).stdout


def answers_of(output: bytes) -> list[list[int]]:
    """The answer and results of each record of an output, and 13 for the one that was refused so."""
    lines = [line.split() for line in output.decode().splitlines()]
    answers = [[int(word) for word in line[2:]] for line in lines if line[0] != "end"]
    return answers + [[13]] if lines[-1][2] == "13" else answers


REFUSALS = {
    1: "card out of shape",
    2: "card unsound",
    3: "no such allocated block",
    4: "operand out of range",
    5: "not opened",
    6: "root",
    7: "ends equal or multiplicity at 65,535",
    8: "no such pointer",
    9: "destination has pointers of its own",
    10: "too few free blocks",
    11: "too few places for pointers",
    12: "end of the clock",
    13: "malformed record, the session ends",
    14: "too few free blocks that adjoin",
    15: "a block that would be freed has a write key",
}


def in_words(name: str, answer: list[int]) -> str:
    """An answer of the named call in words."""
    number, results = answer[0], answer[1:]
    if number != 0:
        return f"refused {number}: {REFUSALS.get(number, 'unknown')}"
    listed = " ".join(str(result) for result in results)
    if name == "DELETE":
        return "done: freed" if results == [1] else "done: not freed"
    words = {"READ": "bytes {}", "ALLOC": "blocks {}", "ALLOC_CONTIG": "blocks {}", "FREE": "{} free", "TICK": "time {}",
             "DELETE_TREE": "{} freed"}
    return "done: " + words[name].format(listed) if name in words else "done"

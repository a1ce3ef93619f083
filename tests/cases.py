#!/usr/bin/env python3
"""Does the cases of crates/fdr_cases_prog/data/ by reader.py, and compares what they say with what it gives.

    tests/cases.py

docs/CASES.md says what a script is. Compared is each line in which no call fails and nothing is stopped, on files that no other line
has left, and the names of the cases with what the program is to write. It ends with 0 where nothing differs.
"""

from __future__ import annotations

import pathlib
import re
import sys
from collections.abc import Iterator
from typing import NamedTuple

sys.dont_write_bytecode = True

import reader

PROGRAM = pathlib.Path(__file__).resolve().parent.parent / "crates" / "fdr_cases_prog"
LONG = "long.cases"  # which takes the reader minutes
LAST_CASE = "NO this case is wrong, and is said to be\n"
SHOWN = 400

Files = dict[str, bytes | None]  # None: only the program can tell


class Unknown(Exception):
    """What only the program can tell: what is left where a call fails, or at a stop."""


class Line(NamedTuple):
    """A line of a script, and the lines that belong to it."""

    head: str
    body: str


def lines_of(text: str) -> Iterator[Line]:
    head, body = "", ""
    for line in text.splitlines():
        if line.startswith("  "):
            body += line[2:] + "\n"
            continue
        yield Line(head, body)
        head, body = line, ""
    yield Line(head, body)


# --- bytes


def number(text: str, n: int) -> int:
    return n + int(text[2:] or "0") if text.startswith("N+") else n if text == "N" else int(text)


def named(files: Files, name: str, n: int) -> bytes:
    name, _, part = name.partition("[")
    if files[name] is None:
        raise Unknown
    data = files[name] or b""
    if not part:
        return data
    start, end = (number(place, n) for place in part.removesuffix("]").split(".."))
    assert start <= end <= len(data), f"a part beyond the end of {name}"
    return data[start:end]


def with_word(data: bytes, bit: int, word: int) -> bytes:
    value = int.from_bytes(data, "little") | word << bit
    return value.to_bytes(len(data), "little")


def changed(data: bytes, key: str, value: str, n: int) -> bytes:
    bits, length = int.from_bytes(data, "little"), len(data)
    if key == "size":
        size = number(value, n)
        return data[:size] + bytes(max(0, size - length))
    if key not in ("turn", "strike", "insert"):
        put, at = bytes.fromhex(value), number(key, n)
        return data[:at] + put + data[at + len(put) :]
    bit = number(value, n)
    low = bits & ((1 << bit) - 1)
    if key == "turn":
        bits ^= 1 << bit
    elif key == "strike":
        bits = low | bits >> bit + 1 << bit
    else:
        bits = (low | bits >> bit << bit + 1) & ((1 << 8 * length) - 1)
    return bits.to_bytes(length, "little")


def with_each(data: bytes, key: str, other: bytes, n: int) -> bytes:
    first, step = (number(place, n) for place in key.split("/"))
    return bytes(other[at] if at >= first and (at - first) % step == 0 and at < len(other) else byte for at, byte in enumerate(data))


def bytes_of(files: Files, tokens: str, n: int = 0) -> bytes:
    data = b""
    for token in tokens.split():
        key, is_put, value = token.partition("=")
        if token.startswith("@"):
            data += named(files, token[1:], n)
        elif is_put and value.startswith("@"):
            data = with_each(data, key, named(files, value[1:], n), n)
        elif is_put:
            data = changed(data, key, value, n)
        elif ":" in token:
            bit, word = token.split(":")
            data = with_word(data, number(bit, n), int(word, 16))
        elif "*" in token:
            byte, times = token.split("*")
            data += bytes.fromhex(byte) * number(times, n)
        else:
            data += bytes.fromhex(token)
    return data


# --- commands


class Command(NamedTuple):
    settings: dict[str, str]
    words: list[str]
    given: str  # the name of its input
    output: str

    @property
    def is_disturbed(self) -> bool:
        """Whether a call fails, or it is stopped."""
        return bool({"reads", "calls", "writes", "stop", "rest"} & set(self.settings))

    def image(self) -> str:
        try:
            words = reader.words_of([word.encode() for word in self.words])
        except reader.Refused:
            return ""
        return words.paths[-1] if "I" in words.command.paths else ""


def command_of(part: str) -> Command:
    before, _, after = f" {part} ".partition(" fdr ")
    settings = dict(setting.split("=", 1) for setting in before.split())
    found = re.fullmatch(r"(.*?)(?: < (\S+))?(?: > (\S+))? *", f" {after}")
    assert found, part
    words, given, output = found.groups()
    return Command(settings, ["" if word == "''" else word for word in words.split()], given or "", output or "")


def shown(output: bytes) -> str:
    """What was written, as a script has it."""
    if re.fullmatch(rb"(?:[ -~]*\n)*", output):
        return output.decode()
    return f"[hex {output.hex()}]\n"


def answer_of(files: Files, command: Command) -> reader.Answer:
    given = named(files, command.given, 0) if command.given else b""
    known = {name: data for name, data in files.items() if data is not None}
    used = [word for word in command.words[1:] if word in files and word not in known]
    if used:
        raise Unknown
    return reader.answer_to([word.encode() for word in command.words], known, given)


def left_unknown(files: Files, command: Command) -> None:
    for name in (command.image(), command.output, *(command.settings.get(key, "") for key in ("rest", "told", "said"))):
        if name:
            files[name] = None


def said_of(files: Files, command: Command) -> str:
    """What a command gives. It leaves its image and its output."""
    answer = answer_of(files, command)
    errors = answer.errors.decode().splitlines()
    last = ["0", *(line[4:] for line in errors if line.startswith("ack "))][-1]
    text = "".join(line for line in errors if not line.startswith("ack "))
    end = f"[{answer.status} {text}]\n" if answer.status else ""
    if "sure" in command.settings:
        return end
    block = ""
    if command.output:
        files[command.output] = answer.output
    else:
        block += shown(answer.output)
    if "told" in command.settings:
        files[command.settings["told"]] = int(last).to_bytes(8, "big")
    elif last != "0":
        block += f"[ack {last}]\n"
    image = command.image()
    if image and answer.image is not None and answer.image != (files.get(image) or b""):
        block += f"[{image} changed]\n"
        files[image] = answer.image
    return block + end


def done(files: Files, part: str, n: int) -> str:
    """Does a part of a line, and says what it gives."""
    name, is_defined, tokens = part.partition(" = ")
    if is_defined:
        files[name] = bytes_of(files, tokens, n)
        return ""
    name, is_compared, tokens = part.partition(" is ")
    if is_compared:
        return "" if named(files, name, n) == bytes_of(files, tokens, n) else f"[not so: {part}]\n"
    if part.split(" ", 1)[0] in ("front", "ring", "keeps"):
        raise Unknown
    command = command_of(part)
    if command.is_disturbed:
        left_unknown(files, command)
        raise Unknown
    said = said_of(files, command)
    if "said" in command.settings:
        files[command.settings["said"]] = said.encode()
        return ""
    return said


def done_all(files: Files, line: str, n: int) -> str:
    """Does all parts of a line. Those after one that only the program can tell are done too, for what they leave."""
    block, is_known = "", True
    for part in line.split("; "):
        try:
            block += done(files, part, n)
        except Unknown:
            is_known = False
            if " = " in part:
                files[part.split(" = ")[0]] = None
            elif " fdr " in f" {part} ":
                left_unknown(files, command_of(part))
    if not is_known:
        raise Unknown
    return block


def blocks_of(first: int, blocks: list[str]) -> str:
    """The blocks of numbers in a row, of which those that are the same are one."""
    text, begin = "", 0
    for at in range(1, len(blocks) + 1):
        if at == len(blocks) or blocks[at] != blocks[begin]:
            text += f"[N={first + begin}..{first + at}]\n{blocks[begin]}"
            begin = at
    return text


def given_by(files: Files, line: str) -> str:
    found = re.match(r"N=(\d+)\.\.(\d*) ", line)
    if not found:
        return done_all(files, line, 0)
    if not found[2]:
        raise Unknown
    first, end = int(found[1]), int(found[2])
    return blocks_of(first, [done_all(dict(files), line[found.end() :], n) for n in range(first, end)])


# --- scripts


class Counts:
    def __init__(self) -> None:
        self.cases, self.compared, self.left, self.wrong = 0, 0, 0, 0

    def compare(self, line: Line, given: str) -> None:
        self.compared += 1
        if given != line.body:
            self.wrong += 1
            print(f"{line.head[:SHOWN]}\n--- by the script\n{line.body[:SHOWN]}--- by the reader\n{given[:SHOWN]}", file=sys.stderr)


def do_line(files: Files, line: Line, counts: Counts) -> None:
    head, body = line
    if head.startswith("$ "):
        counts.compare(line, given_by(files, head[2:]))
    elif head.endswith(":"):
        files[head[:-1]] = body.encode()
    elif " =" in head:
        name, _, tokens = head.partition(" =")
        files[name] = bytes_of(files, f"{tokens} {body}")
    elif " is" in head:
        name, _, tokens = head.partition(" is")
        is_so = named(files, name, 0) == bytes_of(files, f"{tokens} {body}")
        counts.compare(Line(head, ""), "" if is_so else "is not so\n")


def do_script(text: str, counts: Counts) -> None:
    files: Files = {}
    shared: Files | None = None
    for line in lines_of(text):
        if line.head.startswith("case "):
            shared = dict(files) if shared is None else shared
            files = dict(shared)
            counts.cases += 1
        elif line.head and not line.head.startswith("#"):
            try:
                do_line(files, line, counts)
            except Unknown:
                counts.left += 1
                if " =" in line.head and not line.head.startswith("$"):
                    files[line.head.split(" =")[0]] = None


def names_that_differ(names: list[str], scripts: list[str]) -> bool:
    wanted = "".join(f"ok {head[5:]}\n" for text in scripts for head, _ in lines_of(text) if head.startswith("case "))
    written, _, last = (PROGRAM / "stdout").read_text().partition(LAST_CASE)
    files = sorted(path.name for path in (PROGRAM / "data").iterdir())
    return written != wanted or not last or sorted(names) != files


def main() -> int:
    names = (PROGRAM / "args").read_text().split()
    scripts = [(PROGRAM / "data" / name).read_text() for name in names if name != "wrong.cases"]
    counts = Counts()
    do_script("".join(script for name, script in zip(names, scripts) if name != LONG), counts)
    if names_that_differ(names, scripts):
        print("cases: args and stdout don't name the files and cases of data/", file=sys.stderr)
        counts.wrong += 1
    print(f"cases: {counts.compared} lines of {counts.cases} cases as by the reader, {counts.left} left to the program, {counts.wrong} wrong")
    return 1 if counts.wrong else 0


if __name__ == "__main__":
    sys.exit(main())

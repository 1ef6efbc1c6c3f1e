"""Reads files of cases. README.md, beside this file, says what stands in them."""

import functools
import itertools
import os
import random
import re

import draws
import model

ESCAPES = {"n": b"\n", "t": b"\t", "r": b"\r", "s": b" ", "e": b"", "\\": b"\\"}


class Bad(Exception):
    """A case file that cannot be read."""


class Case:
    def __init__(self, name):
        self.name = name
        self.words = []
        self.input = b""
        self.input_from = None
        self.files = {}
        self.odd_files = []
        self.output_to = None
        self.report_to = None
        self.limit = None
        self.seconds = 20
        # How often it is run: so many times, and so many where all is to be run.
        self.runs = 1, 1
        # Whether the model gave the outcome.
        self.by_model = False
        # What is wanted; None where a case says nothing of it.
        self.status = None
        self.output = None
        self.report = None
        # Bytes that stand at a place of the output, and the last lines of the report.
        self.within_output = []
        self.report_end = b""

    def is_plain(self):
        """Whether the model has an answer of its own: ordinary devices, and ample memory."""
        return not (self.by_model or self.input_from or self.output_to or self.report_to or self.limit or self.odd_files)


# Makers: what stands between braces, by its first word.


def noise(seed, count):
    return draws.bytes_of(random.Random(f"noise {seed}"), int(count))


def ramp(width, height):
    """Samples of which the one at (x, y) is (x + y) mod 256."""
    row = bytes(range(256)) * (int(width) // 256 + 2)
    return b"".join(row[y % 256 : y % 256 + int(width)] for y in range(int(height)))


MAKERS = {"noise": noise, "ramp": ramp}


def text_of(template, given):
    """The bytes that a template stands for, with these values for its names."""
    parts, at = [], 0
    while at < len(template):
        sign = template[at]
        if sign == "\\":
            escape = template[at + 1 : at + 2]
            if escape == "x":
                parts.append(bytes([int(template[at + 2 : at + 4], 16)]))
                at += 4
            elif escape in ESCAPES and escape:
                parts.append(ESCAPES[escape])
                at += 2
            else:
                raise Bad(f"no such escape: {template[at:at + 2]}")
        elif sign == "{":
            end = closing(template, at)
            parts.append(made(template[at + 1 : end], given))
            at = end + 1
        else:
            parts.append(sign.encode())
            at += 1
    return b"".join(parts)


def closing(template, at):
    depth = 0
    for place in range(at, len(template)):
        depth += (template[place] == "{") - (template[place] == "}")
        if depth == 0:
            return place
    raise Bad(f"a brace that nothing closes: {template}")


def made(inner, given):
    if inner in given:
        return text_of(given[inner], given)
    maker, _, rest = inner.partition(" ")
    if maker == "repeat":
        count, _, text = rest.partition(" ")
        return text_of(text, given) * int(text_of(count, given))
    if maker == "tile":
        side, maxval, *pixels = rest.split(" ", 2)
        side, maxval, pixels = (text_of(it, given) for it in (side, maxval, *pixels))
        return b"P5\n%s %s\n%s\n" % (side, side, maxval) + pixels.ljust(int(side) ** 2, b"\0")
    if maker in MAKERS:
        return MAKERS[maker](*text_of(rest, given).decode().split())
    raise Bad(f"{{{inner}}} is neither a name of this case nor a maker")


# Blocks: a line 'case NAME', and lines 'KEY REST' below it, each with the indented lines that follow.


def blocks_of(path):
    blocks = []
    with open(path, encoding="utf-8") as file:
        for at, line in enumerate(file, 1):
            line = line.rstrip("\n")
            if line.startswith("  "):
                if not blocks:
                    raise Bad(f"{path}:{at}: a line before the first case")
                blocks[-1][-1][2].append(line[2:])
            elif line.startswith("#") or not line.strip():
                continue
            else:
                key, _, rest = line.partition(" ")
                if key == "case":
                    blocks.append([])
                elif not blocks:
                    raise Bad(f"{path}:{at}: a line before the first case")
                blocks[-1].append((key, rest, []))
    return blocks


def rows_of(lines):
    for line in lines:
        span = re.fullmatch(r"\s*(\d+) \.\. (\d+)\s*", line)
        if span:
            yield from ([str(it)] for it in range(int(span[1]), int(span[2]) + 1))
        else:
            yield [it.strip() for it in line.split(" | ")]


def choices_of(block):
    """The values of the names of a block: each way to take one row of each of its tables."""
    tables = []
    for key, rest, lines in block:
        if key == "each":
            names = [it.strip() for it in rest.split(",")]
            rows = [dict(zip(names, row)) for row in rows_of(lines)]
            if any(len(row) != len(names) for row in rows_of(lines)):
                raise Bad(f"{block[0][1]}: a row of the table {rest} has not {len(names)} columns")
            tables.append(rows)
    for rows in itertools.product(*tables):
        yield {name: value for row in rows for name, value in row.items()}


def case_of(name, block, given):
    case = Case(name)
    served = False
    for key, rest, lines in block[1:]:
        rest, lines = rest.strip(), "".join(line + "\\n" for line in lines)
        text = lambda rest=rest, lines=lines: text_of(rest + lines, given)
        if key == "words":
            case.words = [text_of(word, given) for word in words_of(rest, given)]
        elif key == "input":
            case.input = text()
        elif key == "file":
            name, _, rest = rest.partition(" ")
            case.files[text_of(name, given)] = text_of(rest + lines, given)
        elif key in ("folder", "sparse", "unreadable"):
            case.odd_files.append((key, *text_of(rest, given).decode().split()))
        elif key in ("input-from", "output-to", "report-to", "limit"):
            setattr(case, key.replace("-", "_"), text_of(rest, given).decode())
        elif key == "seconds":
            case.seconds = int(rest)
        elif key == "runs":
            few, many = text().split()
            case.runs = int(few), int(many)
        elif key == "output":
            case.output = text()
        elif key == "report":
            case.report = text()
        elif key == "report-end":
            case.report_end = text()
        elif key == "within-output":
            place, _, held = rest.partition(" ")
            case.within_output.append((int(text_of(place, given)), text_of(held, given)))
        elif key == "status":
            case.status = int(text())
        elif key in ENDS:
            ENDS[key](case, text().decode())
        elif key == "random":
            kind, seed = text_of(rest, given).decode().rsplit(" ", 1)
            case.words, case.input, case.files = getattr(draws, kind.replace(" ", "_"))(seed)
            case.by_model = True
        elif key == "by-model":
            case.by_model = True
        elif key == "served":
            served = True
        elif key != "each":
            raise Bad(f"{case.name}: no such key: {key}")
    if case.by_model:
        case.status, case.output, case.report = model.outcome(case.words, case.input, case.files)
    if served:
        case.status, _, case.report = model.outcome(case.words, case.input, case.files)
    return case


def words_of(text, given):
    """The words between spaces, once the names have their values; a space within braces cuts nothing."""
    for name, value in given.items():
        text = text.replace("{" + name + "}", value)
    words, depth, word = [], 0, ""
    for sign in text + " ":
        depth += (sign == "{") - (sign == "}")
        if sign == " " and not depth:
            words += [word] if word else []
            word = ""
        else:
            word += sign
    return words


def ended(case, status, report, output=b""):
    case.status, case.report = model.STATUS[status], report.encode()
    if case.output is None and not case.output_to:
        case.output = output


ENDS = {
    "done": lambda case, _: ended(case, "done", ""),
    "usage": lambda case, _: ended(case, "usage", "discard: usage\n"),
    "refused": lambda case, text: ended(case, "bad input", f"discard: bad input {text}\n"),
    "fault": lambda case, text: ended(case, f"{text} fault", f"discard: {text} fault\n"),
    "no-memory": lambda case, _: ended(case, "no memory", "discard: no memory\n"),
}


def cases_in(folder):
    """The name of each case in a folder's files, and what makes the case."""
    for name in sorted(os.listdir(folder)):
        if name.endswith(".case"):
            for block in blocks_of(os.path.join(folder, name)):
                for given in choices_of(block):
                    title = f"{name[:-5]}: {text_of(block[0][1], given).decode(errors='replace')}"
                    yield title, functools.partial(case_of, title, block, given)

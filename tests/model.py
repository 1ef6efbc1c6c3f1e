"""What the program has to answer, as a plain model of docs/FORMATS.md and docs/RULES.md.

It was written from these rules and shares nothing with the program. `outcome` gives the status, the output and the report
of one run with ordinary devices and ample memory.
"""

import re

import replays
import serves
import tiles

LAST_MOMENT = 1 << 62
LAST_NUMBER = (1 << 64) - 1

MOST_SCRIPT_BYTES = 1_048_576
MOST_COMMANDS = 4096
MOST_GRANTS = 1024
MOST_LIMIT = 1_048_576
MOST_REQUESTS = 4096
MOST_SIDE = 8192

STATUS = {"done": 0, "no memory": 1, "usage": 2, "bad input": 3, "read fault": 4, "write fault": 5, "file fault": 6}


class Refused(Exception):
    """An input that is refused, at a place and for a cause."""

    def __init__(self, place, cause):
        self.line = f"bad input {place} {cause}"
        self.kind = "bad input"


class Usage(Exception):
    line = kind = "usage"


class FileFault(Exception):
    line = kind = "file fault"


def outcome(words, script, files):
    """Status, output and report of a run with these words, this standard input, and these files by name."""
    try:
        return STATUS["done"], *run(words, script, files)
    except (Refused, Usage, FileFault) as end:
        return STATUS[end.kind], b"", b"discard: %s\n" % end.line.encode()


def run(words, given, files):
    """What a run that ends well writes on the output and on the report."""
    command, positional, options = order_of(words)
    if command == b"replay":
        text = replays.text_of(commands_of(given), options.get(b"--limit", MOST_LIMIT), options.get(b"--standard", 64))
        return text, b""
    if command == b"gen":
        image, requests = serves.generated(*positional)
        replies = serves.reply_of(image, serves.GENERATED.side, requests)
        return serves.gen_line(*positional, replies), serves.Report(serves.GENERATED, requests)
    name, *tile = positional
    if name not in files:
        raise FileFault
    image = image_of(files[name])
    if command == b"tile":
        return tiles.text_of(image, *tile, options.get(b"--side", 256)), b""
    settings = settings_of(options)
    requests = requests_of(given, settings.clients)
    return serves.reply_of(image, settings.side, requests), serves.Report(settings, requests)


def settings_of(options):
    """The settings of `serve`."""
    return serves.Settings(
        clients=options.get(b"--clients", 4),
        limit=options.get(b"--limit", 16384),
        side=options.get(b"--side", 256),
        entries=options.get(b"--entries", 256),
        rounds=options.get(b"--rounds", 0),
        standard=options.get(b"--standard", 64),
        keep=options.get(b"--keep", 16),
    )


# The command line


def number_of(word, low, high):
    """The number that a word stands for, or None where it stands for none in this range."""
    if not re.fullmatch(rb"0|[1-9][0-9]{0,19}", word):
        return None
    value = int(word)
    return value if value <= LAST_NUMBER and low <= value <= high else None


def in_range(low, high):
    return lambda word: number_of(word, low, high)


def file_name(word):
    return word or None


def side(word):
    return {b"64": 64, b"128": 128, b"256": 256}.get(word)


# Of each command the readings of its positional words, and those of its options.
WORDS = {
    b"replay": ([], {b"--limit": in_range(0, MOST_LIMIT), b"--standard": in_range(1, 512), b"--keep": in_range(0, 256)}),
    b"tile": ([file_name, in_range(0, 6), in_range(0, 65535), in_range(0, 65535)], {b"--side": side}),
    b"serve": (
        [file_name],
        {
            b"--clients": in_range(1, 64),
            b"--limit": in_range(0, MOST_LIMIT),
            b"--side": side,
            b"--entries": in_range(1, 4096),
            b"--rounds": in_range(0, 1000),
            b"--standard": in_range(1, 512),
            b"--keep": in_range(0, 256),
        },
    ),
    b"gen": ([in_range(0, 999999)], {}),
}


def order_of(words):
    """The command, its positional words and its options, read."""
    for word in words:
        try:
            word.decode()
        except UnicodeDecodeError:
            raise Usage from None
    if not words or words[0] not in WORDS:
        raise Usage
    readings, known = WORDS[words[0]]
    given, options = [], {}
    rest = iter(words[1:])
    for word in rest:
        name, equals, value = word.partition(b"=")
        if word == b"--":
            given += rest
        elif name in known:
            if not equals:
                value = next(rest, None)
            read = None if value is None or name in options else known[name](value)
            if read is None:
                raise Usage
            options[name] = read
        elif word.startswith(b"-") and len(word) > 1:
            raise Usage
        else:
            given.append(word)
    if len(given) != len(readings):
        raise Usage
    positional = [reading(word) for reading, word in zip(readings, given)]
    if None in positional:
        raise Usage
    return words[0], positional, options


# Scripts


def hex_of(word):
    """The bytes that a word of hexadecimal digits stands for, or None."""
    if re.fullmatch(rb"(?:[0-9a-fA-F]{2}){1,4096}", word):
        return bytes.fromhex(word.decode())
    return None


SEGMENT = in_range(0, LAST_NUMBER)
CLIENT = in_range(1, 64)
MOMENT = in_range(1, LAST_MOMENT)
FIRST = in_range(0, 511)
PAGES = in_range(1, 512)
PLACE = in_range(0, 2097151)
COUNT = in_range(1, 4096)
LIMIT = in_range(0, MOST_LIMIT)
SIZE = in_range(0, 2097152)
PIECE = in_range(0, LAST_NUMBER)


def level(word):
    return word if word in (b"moderate", b"critical") else None


COMMANDS = {
    b"grant": (CLIENT, PAGES, MOMENT),
    b"lock": (SEGMENT, FIRST, PAGES),
    b"unlock": (SEGMENT, FIRST, PAGES, MOMENT),
    b"write": (SEGMENT, PLACE, hex_of),
    b"read": (SEGMENT, PLACE, COUNT),
    b"try": (SEGMENT, MOMENT),
    b"back": (SEGMENT,),
    b"reduce": (LIMIT, MOMENT),
    b"enforce": (MOMENT,),
    b"pressure": (level, MOMENT),
    b"limit": (LIMIT, MOMENT),
    b"remove": (CLIENT,),
    b"granted": (),
    b"alloc": (CLIENT, SIZE, MOMENT),
    b"plock": (PIECE,),
    b"punlock": (PIECE, MOMENT),
    b"pwrite": (PIECE, PLACE, hex_of),
    b"pread": (PIECE, PLACE, COUNT),
    b"pfree": (PIECE, MOMENT),
    b"sweep": (CLIENT,),
    b"release": (CLIENT,),
    b"runs": (CLIENT,),
}

NO_COMMAND, WRONG_COUNT, NO_NUMBER, NO_BYTES, TOO_MANY, TOO_LONG = range(1, 7)
CAUSES = {hex_of: NO_BYTES, level: NO_COMMAND}


def lines_of(text):
    """The lines of a text that are not skipped: the number and the words of each."""
    lines = text.split(b"\n")
    if not lines[-1]:
        lines.pop()
    for at, line in enumerate(lines, 1):
        words = [word for word in re.split(rb"[ \t\r]+", line) if word]
        if words and not words[0].startswith(b"#"):
            yield at, words


def commands_of(script):
    """The commands of a script, each as its name and its values."""
    if len(script) > MOST_SCRIPT_BYTES:
        raise Refused(MOST_SCRIPT_BYTES, TOO_LONG)
    commands, grants = [], 0
    for at, (name, *words) in lines_of(script):
        if name not in COMMANDS:
            raise Refused(at, NO_COMMAND)
        readings = COMMANDS[name]
        if len(words) != len(readings):
            raise Refused(at, WRONG_COUNT)
        values = []
        for reading, word in zip(readings, words):
            value = reading(word)
            if value is None:
                raise Refused(at, CAUSES.get(reading, NO_NUMBER))
            values.append(value)
        grants += name in (b"grant", b"alloc")
        if len(commands) == MOST_COMMANDS or grants > MOST_GRANTS:
            raise Refused(at, TOO_MANY)
        commands.append((name, values))
    return commands


# Requests


def requests_of(text, clients):
    """The requests of a text, each as its client, zoom, column and row."""
    if len(text) > MOST_SCRIPT_BYTES:
        raise Refused(MOST_SCRIPT_BYTES, TOO_LONG)
    readings = (in_range(1, clients), in_range(0, 6), in_range(0, 65535), in_range(0, 65535))
    requests = []
    for at, words in lines_of(text):
        if len(words) != len(readings):
            raise Refused(at, WRONG_COUNT)
        values = [reading(word) for reading, word in zip(readings, words)]
        if None in values:
            raise Refused(at, NO_NUMBER)
        if len(requests) == MOST_REQUESTS:
            raise Refused(at, TOO_MANY)
        requests.append(values)
    return requests


# Images

BAD_MAGIC, BAD_NUMBER, TOO_LARGE, SHORT, WIDE_SAMPLES = range(11, 16)

WHITE_BYTE = re.compile(rb"[ \t\r\n]")
WHITE_SPACE = re.compile(rb"(?:[ \t\r\n]|#[^\r\n]*(?:[\r\n]|\Z))+")
DIGITS = re.compile(rb"[0-9]+")


def image_of(data):
    """Width, height, maxval and samples of the image in a file's bytes."""
    if not data.startswith(b"P5"):
        raise Refused(0, BAD_MAGIC)
    at = 2
    sides = []
    for _ in range(2):
        at = behind(WHITE_SPACE, data, at)
        value, end = digits(data, at)
        if value > MOST_SIDE:
            raise Refused(at, TOO_LARGE)
        sides.append(value)
        at = end
    at = behind(WHITE_SPACE, data, at)
    maxval, end = digits(data, at)
    if maxval > 65535:
        raise Refused(at, BAD_NUMBER)
    if maxval > 255:
        raise Refused(at, WIDE_SAMPLES)
    at = behind(WHITE_BYTE, data, end)
    width, height = sides
    if len(data) - at < width * height:
        raise Refused(len(data), SHORT)
    within = bytes(min(sample, maxval) for sample in range(256))
    return width, height, maxval, data[at : at + width * height].translate(within)


def behind(pattern, data, at):
    found = pattern.match(data, at)
    if not found:
        raise Refused(at, BAD_NUMBER)
    return found.end()


def digits(data, at):
    """The value of the digits at a place, and the place behind them. A value that is far too large may come out smaller."""
    found = DIGITS.match(data, at)
    significant = found.group().lstrip(b"0")[:9] if found else b""
    if not significant:
        raise Refused(at, BAD_NUMBER)
    return int(significant), found.end()

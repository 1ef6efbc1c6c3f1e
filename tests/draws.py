"""Random runs from a seed, the same on every machine. Each gives the words, the standard input and the files."""

import random

LAST_MOMENT = 1 << 62
LAST_NUMBER = (1 << 64) - 1


def bytes_of(draw, count):
    return draw.getrandbits(8 * count).to_bytes(count, "little") if count else b""


def script(seed):
    """A lawful script, of which most commands hit segments that were granted."""
    draw = random.Random(f"script {seed}")
    return [b"replay"], text_of(draw, commands(draw)), {}


def long_script(seed):
    """A lawful script of 4,000 commands."""
    draw = random.Random(f"long script {seed}")
    lines = commands(draw, 3999)
    return [b"replay"], text_of(draw, lines), {}


def broken_script(seed):
    """A script in which a few words, lines or bytes were changed."""
    draw = random.Random(f"broken script {seed}")
    lines = draw.choice((commands(draw), managed(draw, 30), on_pieces(draw, 30, 6)))
    for _ in range(draw.choice((1, 1, 1, 2, 3))):
        break_line(draw, lines)
    text = bytearray(text_of(draw, lines))
    if draw.random() < 0.2:
        text[draw.randrange(len(text))] = draw.choice(b" \n\r\t#0-x\x00\xff\xa0")
    return [b"replay"], bytes(text), {}


class Drawn:
    """A segment of a script that is drawn: how many pages it has, and which may be held."""

    def __init__(self, pages):
        self.pages = pages
        self.held = set(range(pages))

    def run(self, draw, is_held):
        """A run of pages that are held, or free: its first page and its length; any pages where there is none."""
        pages = sorted(self.held if is_held else set(range(self.pages)) - self.held)
        if not pages or draw.random() < 0.1:
            first = draw.randrange(self.pages)
            return first, draw.randrange(1, self.pages - first + 1) + (draw.random() < 0.2)
        first = last = draw.choice((pages[0], draw.choice(pages)))
        while last + 1 in pages and draw.random() < 0.9:
            last += 1
        return first, last - first + 1


KINDS = ("grant", "lock", "lock", "unlock", "unlock", "unlock", "write", "read", "try")


def commands(draw, count=None):
    segments = []
    lines = [grant(draw, segments)]
    now = 1
    for _ in range(count or draw.choice((3, 10, 30, 100, 300))):
        now += draw.choice((0, 0, 1, 5))
        kind = draw.choice(KINDS)
        if kind == "grant" and len(segments) < 1000 and draw.random() < 60 / len(segments):
            lines.append(grant(draw, segments))
        elif draw.random() < 0.03:
            lines.append(["try", str(draw.choice((0, len(segments) + 1, LAST_NUMBER))), str(now)])
        else:
            number = max(1, len(segments) - int(draw.expovariate(0.3)))
            lines.append([kind if kind != "grant" else "try", str(number)])
            lines[-1] += values(draw, lines[-1][0], segments[number - 1], draw.choice((now, now, now, now, draw.randrange(1, 50), 1, LAST_MOMENT)))
    return lines


def values(draw, kind, segment, moment):
    """The words of a command after the segment's number, of which most can be done."""
    if kind == "try":
        return [str(moment)]
    if kind in ("lock", "unlock"):
        first, count = segment.run(draw, kind == "unlock")
        pages = set(range(first, first + count))
        if kind == "lock":
            segment.held |= pages & set(range(segment.pages))
            return [str(first), str(count)]
        segment.held -= pages
        return [str(first), str(count), str(moment)]
    first, pages = segment.run(draw, True)
    count = 4096 if draw.random() < 0.02 else draw.choice((1, 2, 3, 17, 64))
    place = first * 4096 + draw.choice((0, 4095, pages * 4096 - count, draw.randrange(4096)))
    place = min(max(0, place), 2097151)
    if kind == "read":
        return [str(place), str(count)]
    data = bytes_of(draw, count).hex()
    return [str(place), data.upper() if draw.random() < 0.2 else data]


def grant(draw, segments):
    segments.append(Drawn(draw.choice((1, 1, 2, 3, 4, 9, 33, 512))))
    return ["grant", str(draw.randrange(1, 65)), str(segments[-1].pages), str(draw.randrange(1, 9))]


MANAGED = {
    "grant": 4, "lock": 4, "unlock": 8, "write": 2, "read": 2, "try": 3, "back": 2, "reduce": 2, "enforce": 1, "pressure": 1, "limit": 1,
    "remove": 0.5, "granted": 1,
}  # fmt: skip


def managed_script(seed):
    """A lawful script of every command on segments and on the manager, under a limit of its own."""
    draw = random.Random(f"managed script {seed}")
    return managed_words(draw), text_of(draw, managed(draw, draw.choice((3, 10, 30, 100, 300)))), {}


def long_managed_script(seed):
    """The same with 4,096 lines, each a command."""
    draw = random.Random(f"long managed script {seed}")
    lines = managed(draw, 4095)
    return managed_words(draw), "".join(" ".join(line) + "\n" for line in lines).encode(), {}


PIECES = {
    "alloc": 5, "plock": 6, "punlock": 8, "pwrite": 4, "pread": 4, "pfree": 3, "sweep": 1, "release": 1, "runs": 2, "grant": 0.5, "lock": 0.5,
    "unlock": 1, "write": 0.5, "read": 0.5, "try": 3, "back": 0.5, "reduce": 1, "enforce": 1, "pressure": 0.5, "limit": 0.3, "remove": 0.1,
    "granted": 1,
}  # fmt: skip


def piece_script(seed):
    """A lawful script of every command, most of them on pieces of two or three clients."""
    draw = random.Random(f"piece script {seed}")
    standard, most = draw.choice(((1, 3), (2, 3), (4, 6), (4, 6), (16, 20), (64, 80), (512, 512)))
    given = managed_words(draw, (0, 1, 4, 8, 20, 60, 300, 2000, 1048576)) + option(draw, "--standard", standard)
    return given, text_of(draw, on_pieces(draw, draw.choice((10, 30, 100, 300)), most)), {}


def long_piece_script(seed):
    """The same with 4,096 lines, each a command."""
    draw = random.Random(f"long piece script {seed}")
    standard, most = draw.choice(((2, 3), (4, 6), (8, 8), (64, 40)))
    given = managed_words(draw, (8, 20, 60, 200, 1000, 1048576)) + option(draw, "--standard", standard)
    lines = on_pieces(draw, 4096, most)
    return given, "".join(" ".join(line) + "\n" for line in lines).encode(), {}


def heap_script(seed):
    """A lawful script that makes, frees and asks for the runs of one heap with runs of up to 512 pages, and purges little."""
    draw = random.Random(f"heap script {seed}")
    lines, live, now = [], [], 1
    for _ in range(draw.choice((50, 200, 600))):
        now += 1
        kind = draw.choices(("alloc", "pfree", "runs", "sweep", "release", "reduce"), (6, 5, 3, 0.3, 0.2, 0.1))[0]
        if kind == "alloc" and len(lines) < 1000:
            live.append(sum(line[0] == "alloc" for line in lines) + 1)
            pages = draw.choice((1, 1, 2, 3, 5, 17, 100, 254, 255, 256, 257, 300, 511, 512, draw.randrange(1, 513)))
            lines.append(["alloc", "1", str(4096 * pages - draw.choice((0, 0, 1, 4095))), str(now)])
        elif kind == "pfree" and live:
            lines.append(["pfree", str(live.pop(draw.randrange(len(live)))), str(now)])
        elif kind == "reduce":
            lines.append([kind, "0", str(now)])
        elif kind in ("sweep", "release", "runs"):
            lines.append([kind, "1"])
    return [b"replay", b"--standard", b"%d" % draw.choice((1, 64, 300, 512))], text_of(draw, lines), {}


def on_pieces(draw, count, most):
    """Commands of which most hit pieces that are there, and in the state that they need."""
    segments, pieces, lines, now = [], [], [], 1
    granted = 0
    while len(lines) < count:
        now += draw.choice((0, 0, 1, 1, 5))
        moment = str(draw.choice((now, now, now, now, now, draw.randrange(1, now + 1), LAST_MOMENT)))
        kind = draw.choices(list(PIECES), PIECES.values())[0]
        if kind in ("alloc", "grant"):
            granted += 1
            if granted > 1024:
                lines.append(["granted"])
            elif kind == "grant":
                lines.append(small_grant(draw, segments, now))
            else:
                pages = draw.randrange(1, most + 1)
                pieces.append(DrawnPiece(pages))
                lines.append([kind, str(draw.randrange(1, 4)), str(4096 * pages - draw.choice((0, 1, 2000, 4095))), str(now)])
        elif kind in ("plock", "punlock", "pwrite", "pread", "pfree"):
            lines.append(on_piece(draw, kind, pieces, moment))
        elif kind in ("sweep", "release", "runs", "remove"):
            lines.append([kind, str(draw.randrange(1, 5))])
        elif kind in ("reduce", "limit"):
            lines.append([kind, str(draw.choice((0, 1, 3, 8, 20, 60, 200))), moment])
        elif kind == "enforce":
            lines.append([kind, moment])
        elif kind == "pressure":
            lines.append([kind, draw.choice(("moderate", "critical")), moment])
        elif kind == "granted":
            lines.append([kind])
        elif kind == "try":
            lines.append([kind, str(draw.randrange(1, granted + 2)), moment])
        else:
            number = draw.randrange(1, granted + 2)
            lines.append([kind, str(number)])
            if kind != "back":
                lines[-1] += values(draw, kind, draw.choice(segments or [Drawn(2)]), int(moment))
    return lines


class DrawnPiece:
    """A piece of a script that is drawn: how many pages it has, and whether it may be locked, and there."""

    def __init__(self, pages):
        self.pages = pages
        self.locked = True
        self.there = True


def on_piece(draw, kind, pieces, moment):
    wanted = [at for at, piece in enumerate(pieces) if piece.there and piece.locked == (kind != "plock")]
    if not wanted or draw.random() < 0.05:
        number = draw.choice((0, LAST_NUMBER, len(pieces) + 1, draw.randrange(len(pieces) + 1)))
        piece = DrawnPiece(2)
    else:
        at = draw.choice(wanted[-12:])
        number, piece = at + 1, pieces[at]
    if kind == "plock":
        piece.locked = True
        return [kind, str(number)]
    if kind == "punlock":
        piece.locked = False
        return [kind, str(number), moment]
    if kind == "pfree":
        piece.there = False
        return [kind, str(number), moment]
    count = draw.choice((1, 2, 3, 17, 64))
    end = piece.pages * 4096
    place = draw.choice((0, 0, 0, 0, 4095, 4096, end - count, end - 1, draw.randrange(end)))
    place = min(max(0, place), 2097151)
    return [kind, str(number), str(place), str(count) if kind == "pread" else bytes_of(draw, count).hex()]


def served_run(seed):
    """A served run of a small image: requests for a few tiles, with settings of which most have something purged."""
    draw = random.Random(f"served run {seed}")
    clients = draw.choice((1, 1, 2, 2, 3, 4, 4, 8, 64))
    given = [b"serve", b"a.pgm"] + option(draw, "--clients", clients) + option(draw, "--side", draw.choice((64, 64, 64, 128, 256)))
    for name, values in (
        ("--limit", (0, 1, 2, 5, 20, 64, 300, 1048576)),
        ("--entries", (1, 1, 2, 3, 5, 20, 4096)),
        ("--rounds", (0, 1, 3, 20, 100)),
        ("--standard", (1, 2, 3, 5, 16, 64, 512)),
        ("--keep", (0, 1, 4, 256)),
    ):
        if draw.random() < 0.7:
            given += option(draw, name, draw.choice(values))
    tiles = [[str(draw.choice(span)) for span in (range(7), range(4), range(3))] for _ in range(draw.choice((1, 3, 8, 20)))]
    lines = [[str(draw.randrange(1, clients + 1)), *draw.choice(tiles)] for _ in range(draw.choice((0, 1, 5, 20, 60, 200)))]
    return given, text_of(draw, lines), {b"a.pgm": small_image(draw)}


def broken_requests(seed):
    """Requests in which a few words, lines or bytes were changed."""
    draw = random.Random(f"broken requests {seed}")
    lines = [[str(draw.choice(span)) for span in (range(1, 4), range(7), range(4), range(3))] for _ in range(draw.choice((1, 4, 20)))]
    for _ in range(draw.choice((1, 1, 1, 2, 3))):
        break_line(draw, lines)
    text = bytearray(text_of(draw, lines))
    if text and draw.random() < 0.2:
        text[draw.randrange(len(text))] = draw.choice(b" \n\r\t#0-x\x00\xff\xa0")
    return [b"serve", b"a.pgm", b"--side=64", b"--clients=3"], bytes(text), {b"a.pgm": small_image(draw)}


def small_image(draw):
    width, height = (draw.choice((1, 3, 63, 64, 65, 130, 200)) for _ in range(2))
    return b"P5 %d %d %d\n" % (width, height, draw.choice((1, 100, 255, 255))) + bytes_of(draw, width * height)


def managed_words(draw, limits=(0, 1, 4, 8, 20, 60, 200, 1048576)):
    given = [b"replay"]
    if draw.random() < 0.8:
        given += option(draw, "--limit", draw.choice(limits))
    if draw.random() < 0.5:
        given += option(draw, "--keep", draw.choice((0, 1, 2, 16, 256)))
    return given


def option(draw, name, value):
    return [name.encode(), b"%d" % value] if draw.random() < 0.5 else [f"{name}={value}".encode()]


def managed(draw, count):
    """Commands of which most hit segments that were granted, and not all of which are there any more."""
    segments = []
    lines = [small_grant(draw, segments)]
    now = 1
    while len(lines) <= count:
        now += draw.choice((0, 0, 1, 1, 5))
        moment = draw.choice((now, now, now, now, now, draw.randrange(1, now + 1), LAST_MOMENT))
        kind = draw.choices(list(MANAGED), MANAGED.values())[0]
        if kind == "grant":
            lines.append(small_grant(draw, segments, now) if len(segments) < 1024 else ["granted"])
        elif kind in ("reduce", "limit"):
            lines.append([kind, str(draw.choice((0, 1, 3, 8, 20, 60, 200))), str(moment)])
        elif kind == "enforce":
            lines.append([kind, str(moment)])
        elif kind == "pressure":
            lines.append([kind, draw.choice(("moderate", "critical")), str(moment)])
        elif kind == "remove":
            lines.append([kind, str(draw.randrange(1, 7))])
        elif kind == "granted":
            lines.append([kind])
        else:
            number = max(1, len(segments) - int(draw.expovariate(0.15)))
            lines.append([kind, str(draw.choice((number,) * 30 + (0, len(segments) + 1, LAST_NUMBER)))])
            if kind != "back":
                lines[-1] += values(draw, kind, segments[number - 1], moment)
    return lines


def small_grant(draw, segments, now=1):
    segments.append(Drawn(draw.choice((1, 1, 1, 2, 3, 4, 9))))
    return ["grant", str(draw.randrange(1, 7)), str(segments[-1].pages), str(now)]


def text_of(draw, lines):
    ends = draw.choice(("\n", "\n", "\r\n", " \n", "\t\r\r\n"))
    spaces = draw.choice((" ", " ", "\t", " \t ", "  "))
    parts = []
    for line in lines:
        if draw.random() < 0.05:
            parts.append(draw.choice(("# a comment", "", " \t", "\r", "#", "  #grant 1 1 1")) + ends)
        parts.append(draw.choice(("", "", spaces)) + spaces.join(line) + ends)
    text = "".join(parts)
    return (text.rstrip() if draw.random() < 0.2 else text).encode()


BAD_NUMBERS = ("", "00", "01", "-1", "+1", "1.", "0x1", "1e3", "a", "18446744073709551616", "4611686018427387905", "513", "512", "65", "64", "0", "4097", "2097152", "9" * 400, "#", "1#")


def break_line(draw, lines):
    at = draw.randrange(len(lines))
    line = list(lines[at])
    kind = draw.randrange(8)
    word = draw.randrange(len(line))
    if kind == 0:
        del line[word]
    elif kind == 1:
        line.insert(word + 1, "1")
    elif kind in (2, 3, 4):
        line[word] = draw.choice(BAD_NUMBERS)
    elif kind == 5:
        line[0] = draw.choice(("Grant", "grants", "gran", "back", "reduce", "granted", "pressure", "x", "lock", "try", "read", "write", "alloc", "plock", "runs", "Runs"))
    elif kind == 6:
        line.reverse()
    else:
        line[-1] += draw.choice(("0", "g", "ab", "\x0b"))
    lines[at] = line or ["#"]


POOL = (
    "replay", "tile", "serve", "gen", "a.pgm", "a.pgm", "a.pgm", "b.pgm", "--x", "", "-", "--", "--", "0", "0", "1", "6", "7", "00", "65535",
    "65536", "--side", "--side", "--side=64", "--side=128", "--side=256", "--side=", "--side=65", "--side=64=", "-side", "--sid", "--sidex",
    "64", "128", "256", "100", "--limit", "--limit=4", "--keep", "--keep=2", "--keep=257", "--limit=1048577", "16", "1048576", "--help", "-h", "18446744073709551616", "\u00e9",
)  # fmt: skip


SERVED = (
    ("--clients", 1, 64), ("--limit", 0, 1048576), ("--side", 64, 256), ("--entries", 1, 4096), ("--rounds", 0, 1000), ("--standard", 1, 512),
    ("--keep", 0, 256),
)  # fmt: skip


def words(seed):
    """Words of the command line, near lawful ones, with a small image at hand."""
    draw = random.Random(f"words {seed}")
    if draw.random() < 0.15:
        given = [draw.choice(POOL) for _ in range(draw.randrange(8))]
    elif draw.random() < 0.2:
        given = ["replay"] + [draw.choice(POOL) for _ in range(draw.randrange(3))]
    elif draw.random() < 0.3:
        given = ["replay"]
        for name in ("--limit", "--keep", draw.choice(("--limit", "--keep", "--standard", "--"))):
            value = draw.choice(("0", "4", "256", "04", "-4", "", "1048576", "1048577"))
            given += draw.choice(([], [name, value], [f"{name}={value}"], [name]))
    elif draw.random() < 0.4:
        given = draw.choice((["serve", "a.pgm"],) * 5 + (["serve"], ["serve", "--", "--x"], ["gen"], ["gen", "00"], ["gen", "1000000"]))
        for _ in range(draw.choice((0, 1, 1, 2, 3))):
            name, least, most = draw.choice(SERVED)
            value = draw.choice((least, most, least, most, least - 1, most + 1, "064", "", "x"))
            at = draw.randrange(1, len(given) + 1)
            given[at:at] = draw.choice(([name, str(value)], [f"{name}={value}"], [name, str(value)], [f"{name}={value}"], [name]))
    else:
        given = ["tile", "a.pgm", draw.choice("0123456"), draw.choice("001"), draw.choice("001")]
        for _ in range(draw.randrange(4)):
            kind, at = draw.randrange(5), draw.randrange(len(given) + 1)
            if kind == 0 and given:
                given.pop(at - 1)
            elif kind == 1:
                given.insert(at, draw.choice(POOL))
            elif kind == 2 and at < len(given):
                given[at] = draw.choice(POOL)
            elif kind == 3:
                given[at:at] = ["--side", draw.choice(("64", "128", "256"))]
            else:
                given.insert(at, "--")
    files = {b"a.pgm": b"P5 2 2 9\n\x01\x02\x03\x0a", b"--x": b"P5 1 1 255\n\x07", b"-": b"P5 1 1 1\n\x01"}
    return [word.encode() for word in given], b"grant 1 1 1\n", files


def image(seed):
    """An image of random sides, with a header in a form of its own, and one of its tiles."""
    draw = random.Random(f"image {seed}")
    width, height = (draw.choice((1, 2, 3, 7, 8, 63, 64, 65, 100, 130)) for _ in range(2))
    maxval = draw.choice((1, 2, 9, 100, 254, 255, 255))
    data = header(draw, width, height, maxval) + bytes_of(draw, width * height) + bytes_of(draw, draw.choice((0, 0, 1, 50)))
    z = draw.randrange(7)
    side = draw.choice((64, 64, 64, 128, 256))
    far = draw.random() < 0.05
    x, y = (65535 if far else draw.randrange(max(1, (edge >> z) // side + 1)) for edge in (width, height))
    order = [b"tile", b"a.pgm", b"%d" % z, b"%d" % x, b"%d" % y]
    return order + ([b"--side=%d" % side] if side != 256 or draw.random() < 0.5 else []), b"", {b"a.pgm": data}


def header(draw, width, height, maxval):
    def white():
        return "".join(draw.choice((" ", "\n", "\t", "\r", "\r\n", "# a comment\n", "#\r", "#5 6\n")) for _ in range(draw.choice((1, 1, 1, 2, 4))))

    def digits(value):
        return "0" * draw.choice((0, 0, 0, 1, 400)) + str(value)

    return ("P5" + white() + digits(width) + white() + digits(height) + white() + digits(maxval) + draw.choice(" \n\r\t")).encode()


def broken_image(seed):
    """A small image in whose header a few bytes were changed."""
    draw = random.Random(f"broken image {seed}")
    width, height = draw.randrange(1, 5), draw.randrange(1, 5)
    data = bytearray(header(draw, width, height, draw.choice((1, 255))) + bytes_of(draw, width * height))
    if draw.random() < 0.2:
        del data[draw.randrange(len(data)) :]
    for _ in range(draw.choice((1, 1, 2, 3))):
        kind, at = draw.randrange(3), draw.randrange(min(len(data), 30) + 1)
        odd = draw.choice(b"0123456789 \n\r\t#P\x00\x0b\xff-+.a")
        if kind == 0:
            data[at : at + 1] = b""
        elif kind == 1:
            data[at:at] = bytes((odd,))
        else:
            data[at : at + 1] = bytes((odd,))
    return [b"tile", b"a.pgm", b"0", b"0", b"0", b"--side=64"], b"", {b"a.pgm": bytes(data)}

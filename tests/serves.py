"""What a run of `serve` or `gen` writes, as a plain model of docs/FORMATS.md and docs/RULES.md.

Replies are told exactly. A report depends on how the clients' threads took turns, so it is told by its rules: the book is
legal, each grant is followed by one purge or return of its number, and the clients' lines agree with what each asked.
"""

import re
from collections import namedtuple

import tiles

Settings = namedtuple("Settings", "clients limit side entries rounds standard keep")

# Those of a generated workload.
GENERATED = Settings(clients=4, limit=128, side=256, entries=8, rounds=8, standard=64, keep=4)

PAGE = 4096
MOST_REQUESTS = 4096


def reply_of(image, side, requests):
    """The tile of each request, with its head."""
    made = {}
    for _, *tile in requests:
        if tuple(tile) not in made:
            made[tuple(tile)] = tiles.text_of(image, *tile, side)
    return b"".join(made[tuple(tile)] for _, *tile in requests)


class Report:
    """The reports that a run may write. It is equal to each of them, and then to no other text."""

    def __init__(self, settings, requests):
        self.settings = settings
        self.requests = requests
        self.wrong = None

    def __eq__(self, came):
        self.wrong = fault_of(came, self.settings, self.requests) if isinstance(came, bytes) else None
        return self.wrong is None

    def __repr__(self):
        return f"a report by the rules; {self.wrong}"


def fault_of(report, settings, requests):
    """What is wrong with a report, or None."""
    if not report.endswith(b"\n"):
        return "its last line has no end"
    lines = report.decode(errors="replace").split("\n")[:-1]
    told = 1 + settings.clients
    if len(lines) < told:
        return "it has too few lines"
    try:
        granted, purged = book_of(lines[:-told], settings)
    except Wrong as wrong:
        return str(wrong)
    except ValueError:
        return "a line of its book has other words"
    if lines[-1] != "granted 0":
        return f"it ends with {lines[-1]}"
    for client, line in enumerate(lines[-told:-1], 1):
        asked = [tuple(tile) for number, *tile in requests if number == client]
        wrong = tally_fault(line, client, asked, granted[client], purged[client], settings)
        if wrong:
            return f"{line}: {wrong}"
    return None


class Wrong(Exception):
    pass


def book_of(lines, settings):
    """The pages of each client's grants, and those of its segments that were purged. Raises Wrong at the first line of a book
    that is not legal."""
    live, ended, rounds, last = {}, set(), 0, None
    granted, purged = ({client: [] for client in range(1, settings.clients + 1)} for _ in range(2))
    for line in lines:
        kind, *words = line.split(" ")
        numbers = [None if word == "-" else int(word) for word in words]
        pages = sum(size for _, size in live.values())
        if last and last[0] == "purge" and kind not in ("purge", "reduced"):
            raise Wrong(f"{line}: a purge before it is in no reduction")
        if kind == "grant":
            number, client, size, limit = numbers
            room = max(limit - size, 0)
            if number != len(live) + len(ended) + 1:
                raise Wrong(f"{line}: another number was due")
            if limit != settings.limit:
                raise Wrong(f"{line}: the limit is another")
            if pages > room and last != ("reduced", room):
                raise Wrong(f"{line}: {pages} pages are granted, and no reduction made room")
            if not 1 <= client <= settings.clients:
                raise Wrong(f"{line}: there is no such client")
            live[number] = client, size
            granted[client].append(size)
        elif kind in ("purge", "back"):
            if numbers[0] not in live:
                raise Wrong(f"{line}: this segment is not live")
            if kind == "purge" and not numbers[1]:
                raise Wrong(f"{line}: a segment that was never idle is purged")
            client, size = live.pop(numbers[0])
            if kind == "purge":
                purged[client].append(size)
            ended.add(numbers[0])
        elif kind == "reduced":
            limit, now, after, least = numbers
            if after != pages or (least is None) != (not live):
                raise Wrong(f"{line}: {pages} pages are granted")
            if not (after <= limit or least is None or least >= now):
                raise Wrong(f"{line}: it ends too early")
            rounds += limit == settings.limit
        else:
            raise Wrong(f"{line}: no such entry")
        last = (kind, numbers[0])
    if live:
        raise Wrong(f"{sorted(live)} are granted at the end")
    if rounds < settings.rounds:
        raise Wrong(f"{rounds} reductions to the limit in {settings.rounds} rounds")
    return granted, purged


TALLY = re.compile(r"client (\d+) requests (\d+) first (\d+) kept (\d+) rebuilt (\d+) again (\d+) grants (\d+)")


def tally_fault(line, client, asked, granted, purged, settings):
    """What is wrong with a client's line, given the tiles that it asked, the pages of its grants, and those of its purged
    segments; or None."""
    found = TALLY.fullmatch(line)
    if not found:
        return "it is no client's line"
    number, requests, first, kept, rebuilt, again, grants = map(int, found.groups())
    firsts, hits = hits_of(asked, settings.entries)
    if (number, requests, first, kept + rebuilt, again) != (client, len(asked), firsts, hits, len(asked) - firsts - hits):
        return f"of {len(asked)} requests {firsts} are firsts and {hits} are hits"
    if grants != len(granted):
        return f"the book has {len(granted)} grants"
    if grants > first + rebuilt + again:
        return "there are more grants than tiles that were made"
    if first and not grants:
        return "its tiles were made in no segment"
    # As many tiles lie in a segment as it has room for.
    pages = -(-settings.side * settings.side // PAGE)
    if rebuilt > sum(size // pages for size in purged):
        return "there are more lost tiles than the purged segments had room for"
    return None


def hits_of(asked, entries):
    """How many tiles are asked for the first time, and how many are among the last of so many that were asked."""
    recent, seen, hits = [], set(), 0
    for tile in asked:
        if tile in recent:
            hits += 1
            recent.remove(tile)
        recent = [tile, *recent][:entries]
        seen.add(tile)
    return len(seen), hits


# The generator


def generated(number):
    """The image and the requests of a generated workload."""
    state = number

    def draw():
        nonlocal state
        state = (state * 6364136223846793005 + 1442695040888963407) % 2**64
        return state >> 33

    image = 640, 480, 255, bytes(draw() % 256 for _ in range(640 * 480))
    requests = []
    for _ in range(512):
        client, z, x, y = draw(), draw(), draw(), draw()
        requests.append((1 + client % 4, z % 3, x % 3, y % 2))
    return image, requests


def gen_line(number, replies):
    return b"gen %d tiles 512 bytes %d sum %d\n" % (number, len(replies), sum(replies))

"""What a script replies, as a plain model of docs/RULES.md: segments, the manager, and each client's heap.

It was written from the rules and shares nothing with the program.
"""

PAGE = 4096
LAST_LIST = 256


class Segment:
    def __init__(self, number, client, pages, in_heap):
        self.number = number
        self.client = client
        self.pages = pages
        self.in_heap = in_heap
        self.held = set(range(pages))
        self.stamp = 0
        self.known = 0
        self.gone = False
        self.ended = False
        self.left = bytearray(pages * PAGE)

    def is_live(self):
        return not self.gone and not self.ended

    def lock(self, first, count):
        pages = set(range(first, first + count))
        if first + count > self.pages or pages & self.held:
            return "misuse"
        if self.gone:
            return "gone"
        self.held |= pages
        return "held"

    def unlock(self, first, count, at):
        pages = set(range(first, first + count))
        if not pages <= self.held:
            return "misuse"
        self.held -= pages
        if self.held:
            return f"held {len(self.held)}"
        self.stamp = max(self.stamp, at)
        return f"idle {self.stamp}"

    def is_held(self, place, count):
        return all(page in self.held for page in range(place // PAGE, (place + count - 1) // PAGE + 1))

    def write(self, place, data):
        if not self.is_held(place, len(data)):
            return "misuse"
        self.left[place : place + len(data)] = data
        return "ok"

    def read(self, place, count):
        if not self.is_held(place, count):
            return "misuse"
        return self.left[place : place + count].hex()


class Piece:
    def __init__(self, client, segment, first, pages):
        self.client = client
        self.segment = segment
        self.first = first
        self.pages = pages
        self.locked = True


class Heap:
    """What one client has: its segments in the order of their adoption, its free runs, the oldest first, and the
    segments that it found gone and has not told the manager."""

    def __init__(self):
        self.segments = []
        self.runs = []
        self.untold = []

    def pick(self, pages, slack):
        """The run that a search takes, or None."""
        fitting = [run for run in self.runs if pages <= run[2] <= pages + slack]
        exact = [run[2] for run in fitting if run[2] < LAST_LIST]
        if exact:
            fitting = [run for run in fitting if run[2] == min(exact)]
        return fitting[-1] if fitting else None

    def free(self, number, first, pages):
        """A span becomes free: it joins the runs that it touches, and the joined run is the latest."""
        end = first + pages
        for run in [run for run in self.runs if run[0] == number]:
            if run[1] + run[2] == first:
                first = run[1]
                self.runs.remove(run)
            elif run[1] == end:
                end += run[2]
                self.runs.remove(run)
        self.runs.append((number, first, end - first))

    def drop(self, segment):
        """A segment that is gone leaves, if it had not left yet."""
        if segment in self.segments:
            self.leave(segment)
            self.untold.append(segment)

    def leave(self, segment):
        self.segments.remove(segment)
        self.runs = [run for run in self.runs if run[0] != segment.number]

    def is_all_free(self, segment):
        return (segment.number, 0, segment.pages) in self.runs


class Replay:
    def __init__(self, limit, standard):
        self.limit = limit
        self.standard = standard
        self.segments = {}
        self.heaps = {}
        self.pieces = {}
        self.drawn_pieces = 0
        self.granted_pages = 0

    def reply(self, name, values):
        return getattr(self, f"reply_to_{name.decode()}")(*values)

    # The manager

    def end(self, segment):
        """A segment is given back: how many segments that counts off."""
        counted = segment.is_live()
        if counted:
            self.granted_pages -= segment.pages
        segment.ended = True
        return int(counted)

    def try_purge(self, segment, now):
        if not segment.held and segment.known == segment.stamp:
            segment.gone = True
            self.granted_pages -= segment.pages
            return "taken"
        segment.known = now if segment.held else segment.stamp
        return f"used {segment.known}"

    def reduce(self, limit, now):
        """Tries the segments by known use and number, as long as that is due: the least known use, and those purged."""
        live = [segment for segment in self.segments.values() if segment.is_live()]
        purged = []
        while True:
            least = min(live, key=lambda it: (it.known, it.number), default=None)
            if self.granted_pages <= limit or least is None or least.known >= now:
                return None if least is None else least.known, purged
            if self.try_purge(least, now) == "taken":
                live.remove(least)
                purged.append(least.number)

    def reply_to_reduction(self, limit, now):
        least, purged = self.reduce(limit, now)
        words = ["reduced", str(self.granted_pages), "-" if least is None else str(least)]
        return " ".join(words + [str(number) for number in purged])

    def draw(self, client, pages, now, in_heap):
        room = max(self.limit - pages, 0)
        if self.granted_pages > room:
            self.reduce(room, now)
        segment = Segment(len(self.segments) + 1, client, pages, in_heap)
        self.segments[segment.number] = segment
        self.granted_pages += pages
        return segment

    # Segments by number

    def plain(self, number):
        """The segment of a grant that was not given back, or None."""
        segment = self.segments.get(number)
        return segment if segment and not segment.in_heap and not segment.ended else None

    def reply_to_grant(self, client, pages, now):
        return f"segment {self.draw(client, pages, now, False).number}"

    def reply_to_lock(self, number, first, count):
        segment = self.plain(number)
        return segment.lock(first, count) if segment else "misuse"

    def reply_to_unlock(self, number, first, count, at):
        segment = self.plain(number)
        return segment.unlock(first, count, at) if segment else "misuse"

    def reply_to_write(self, number, place, data):
        segment = self.plain(number)
        return segment.write(place, data) if segment else "misuse"

    def reply_to_read(self, number, place, count):
        segment = self.plain(number)
        return segment.read(place, count) if segment else "misuse"

    def reply_to_try(self, number, now):
        segment = self.segments.get(number)
        return self.try_purge(segment, now) if segment and segment.is_live() else "misuse"

    def reply_to_back(self, number):
        segment = self.segments.get(number)
        if segment is None:
            return "unknown"
        if segment.in_heap:
            return "misuse"
        if segment.gone:
            self.end(segment)
            return "purged"
        return "counted" if self.end(segment) else "unknown"

    def reply_to_reduce(self, limit, now):
        return self.reply_to_reduction(limit, now)

    def reply_to_enforce(self, now):
        return self.reply_to_reduction(self.limit, now)

    def reply_to_pressure(self, level, now):
        return self.reply_to_reduction(self.limit // 2 if level == b"moderate" else 0, now)

    def reply_to_limit(self, limit, now):
        self.limit = limit
        return self.reply_to_reduction(limit, now)

    def reply_to_remove(self, client):
        count = sum(self.end(segment) for segment in self.segments.values() if segment.client == client)
        self.heaps.pop(client, None)
        self.pieces = {number: piece for number, piece in self.pieces.items() if piece.client != client}
        return f"removed {count}"

    def reply_to_granted(self):
        return f"granted {self.granted_pages}"

    # Pieces of a client's heap

    def heap(self, client):
        return self.heaps.setdefault(client, Heap())

    def find(self, client, pages):
        """A piece from the free runs, locked, or None; each segment that is found gone leaves."""
        heap = self.heap(client)
        while run := heap.pick(pages, max(self.standard - pages, 0)):
            number, first, length = run
            segment = self.segments[number]
            if segment.lock(first, pages) == "gone":
                heap.drop(segment)
                continue
            heap.runs.remove(run)
            if length > pages:
                heap.runs.append((number, first + pages, length - pages))
            return Piece(client, segment, first, pages)
        return None

    def adopt(self, client, pages, now):
        heap = self.heap(client)
        self.sweep(heap)
        while heap.untold:
            self.end(heap.untold.pop(0))
        segment = self.draw(client, max(pages, self.standard), now, True)
        heap.segments.append(segment)
        if segment.pages > pages:
            segment.unlock(pages, segment.pages - pages, now)
            heap.runs.append((segment.number, pages, segment.pages - pages))
        return Piece(client, segment, 0, pages)

    def sweep(self, heap):
        gone = [segment for segment in heap.segments if not segment.held and segment.gone]
        for segment in gone:
            heap.drop(segment)
        return len(gone)

    def reply_to_alloc(self, client, size, now):
        pages = max(1, -(-size // PAGE))
        piece = self.find(client, pages)
        where = "old" if piece else "new"
        piece = piece or self.adopt(client, pages, now)
        self.drawn_pieces += 1
        self.pieces[self.drawn_pieces] = piece
        return f"piece {self.drawn_pieces} {where} {piece.segment.number} {piece.first} {piece.pages}"

    def reply_to_plock(self, number):
        piece = self.pieces.get(number)
        if piece is None or piece.locked:
            return "misuse"
        if piece.segment.gone:
            self.heap(piece.client).drop(piece.segment)
            return "gone"
        piece.locked = True
        return piece.segment.lock(piece.first, piece.pages)

    def reply_to_punlock(self, number, at):
        piece = self.pieces.get(number)
        if piece is None or not piece.locked:
            return "misuse"
        piece.locked = False
        return piece.segment.unlock(piece.first, piece.pages, at)

    def reply_to_pwrite(self, number, place, data):
        piece = self.pieces.get(number)
        if piece is None or not piece.locked or place + len(data) > piece.pages * PAGE:
            return "misuse"
        return piece.segment.write(piece.first * PAGE + place, data)

    def reply_to_pread(self, number, place, count):
        piece = self.pieces.get(number)
        if piece is None or not piece.locked or place + count > piece.pages * PAGE:
            return "misuse"
        return piece.segment.read(piece.first * PAGE + place, count)

    def reply_to_pfree(self, number, at):
        piece = self.pieces.pop(number, None)
        if piece is None:
            return "misuse"
        if piece.locked:
            piece.segment.unlock(piece.first, piece.pages, at)
        heap = self.heap(piece.client)
        if piece.segment not in heap.segments:
            return "dead"
        heap.free(piece.segment.number, piece.first, piece.pages)
        return "freed"

    def reply_to_sweep(self, client):
        return f"swept {self.sweep(self.heap(client))}"

    def reply_to_release(self, client):
        heap, count = self.heap(client), 0
        for segment in [it for it in heap.segments if heap.is_all_free(it)]:
            heap.leave(segment)
            count += self.end(segment)
        return f"released {count}"

    def reply_to_runs(self, client):
        return " ".join(["runs"] + ["%d:%d+%d" % run for run in self.heap(client).runs])


def text_of(commands, limit, standard):
    """The reply to each command, a line each."""
    replay = Replay(limit, standard)
    return b"".join(replay.reply(name, values).encode() + b"\n" for name, values in commands)

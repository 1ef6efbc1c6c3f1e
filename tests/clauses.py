#!/usr/bin/env python3
"""Lists the clauses of the public calls, compares two lists, and looks up what the documents name.

    python3 tests/clauses.py list [REVISION]       one public clause a line: crate, owner, call, kind, name, text
    python3 tests/clauses.py compare REVISION      what REVISION has and this tree has not, and the other way round
    python3 tests/clauses.py check                 what docs/PROVED.md, docs/BEHAVIOURS.md and the README name stands where they say
    python3 tests/clauses.py write                 writes the tables of calls in docs/PROVED.md anew from the sources

`tests/run.py` makes the check. It reads sources as text, and proves nothing: that a clause holds is what `rt ci` shows.
"""

import collections
import difflib
import os
import re
import subprocess
import sys

TOP = os.path.dirname(os.path.dirname(os.path.abspath(__file__)))
PROVED = "docs/PROVED.md"
BEHAVIOURS = "docs/BEHAVIOURS.md"

Clause = collections.namedtuple("Clause", "kind name text")
Call = collections.namedtuple("Call", "crate file owner name is_public head clauses")


def files_of(revision):
    """The text of each source file, by its path from the top."""
    if revision is None:
        found = {}
        for folder, _, names in os.walk(os.path.join(TOP, "crates")):
            for name in names:
                path = os.path.relpath(os.path.join(folder, name), TOP)
                if path.endswith(".rt") and path.split(os.sep)[2] == "src":
                    with open(os.path.join(TOP, path), encoding="utf-8") as file:
                        found[path] = file.read()
        return found
    paths = subprocess.run(["git", "ls-tree", "-r", "--name-only", revision, "crates"], cwd=TOP, capture_output=True, text=True, check=True).stdout.split()
    paths = [path for path in paths if path.endswith(".rt") and path.split("/")[2] == "src"]
    return {path: subprocess.run(["git", "show", f"{revision}:{path}"], cwd=TOP, capture_output=True, text=True, check=True).stdout for path in paths}


def without_comments(text):
    return "\n".join(re.sub(r"(^|\s)//.*$", "", line) for line in text.split("\n"))


def closing(text, at, opens="{", closes="}"):
    """The place after the bracket that closes the one at `at`."""
    depth = 0
    for place in range(at, len(text)):
        depth += (text[place] == opens) - (text[place] == closes)
        if not depth:
            return place + 1
    return len(text)


CLAUSE = re.compile(r"\s*(requires|ensures)\b\*?\s*([a-z_0-9]*)\s*(?=\{)")
OWNER = re.compile(r"^(?:pub(?:\([a-z]+\))? )?(impl|trait)\b([^{;]*)\{", re.M)
CALL = re.compile(r"^([ \t]*)((?:pub(?:\([a-z]+\))? )?)(?:const )?(?:unsafe )?fn ([a-z_0-9]+)", re.M)


def clauses_after(text, at):
    """The clauses of the call whose name ends at `at`, and its head."""
    end = re.search(r"\n\s*(?:requires|ensures)\b|[{;]", text[at:])
    stop = at + (end.start() if end else 0)
    head, clauses = " ".join(text[at:stop].split()), []
    # (the bounds of a where list stand before the clauses)
    place = stop
    while True:
        found = CLAUSE.match(text, place)
        if not found:
            return head, clauses
        start = text.index("{", found.end() - 1 if text[found.end() - 1] == "{" else found.end())
        place = closing(text, start)
        clauses.append(Clause(found[1], found[2], " ".join(text[start + 1 : place - 1].split())))


def calls_of(revision=None):
    """Every function of the sources, with its clauses."""
    calls, files = [], files_of(revision)
    for path, text in sorted(files.items()):
        crate, text = path.split("/")[1], without_comments(text)
        handed_on = without_comments(files.get(f"crates/{crate}/src/lib.rt", ""))
        module = path.split("/src/")[1][:-3].replace("/", "::")
        owners = []
        for found in OWNER.finditer(text):
            words = re.sub(r"<[^<>]*>", "", re.sub(r"<[^<>]*>", "", found[2])).split(" where ")[0].split()
            owner = words[words.index("for") + 1] if "for" in words else words[0] if words else ""
            of = words[0] if "for" in words else ""
            owners.append((found.start(), closing(text, found.end() - 1), found[1], owner.rstrip(",:"), of))
        for found in CALL.finditer(text):
            inside = [it for it in owners if it[0] < found.start() < it[1]]
            kind, owner, of = (inside[-1][2], inside[-1][3], inside[-1][4]) if inside else ("", "", "")
            # (what a trait asks for is as public as the trait, and so is what an impl of it does)
            is_public = found[2].strip() == "pub" or kind == "trait" or bool(of)
            if not owner and module not in ("lib", "main"):
                is_public = is_public and bool(re.search(rf"pub mod {module};|pub use [^;]*\b{found[3]}\b", handed_on))
            head, clauses = clauses_after(text, found.end())
            calls.append(Call(crate, path.split("/src/")[1], owner, found[3], is_public, head, clauses))
    return calls


def lines_of(revision):
    """A line for each public clause, without the crate's own name, so that a crate may get another one."""
    lines = collections.Counter()
    for call in calls_of(revision):
        if call.is_public:
            for clause in call.clauses:
                lines[f"{call.owner + '.' if call.owner else ''}{call.name}: {clause.kind} {clause.name} {{ {clause.text} }}"] += 1
    return lines


def listed(revision):
    for call in calls_of(revision):
        if call.is_public:
            for clause in call.clauses:
                print(call.crate, call.owner or "-", call.name, clause.kind, clause.name or "-", clause.text, sep="\t")
    return 0


def compared(revision):
    before, now = lines_of(revision), lines_of(None)
    lost, new = sorted((before - now).elements()), sorted((now - before).elements())
    for line in lost:
        like = difflib.get_close_matches(line, new, 1, 0.7)
        print(f"- {line}" + (f"\n+ {like[0]}" if like else ""))
        if like:
            new.remove(like[0])
    for line in new:
        print(f"+ {line}")
    print(f"{sum(before.values())} public clauses before, {sum(now.values())} now, {len(lost)} of those before have another text or are gone")
    return 0


ROW = re.compile(r"^\| `([^`]+)` \| `([^`]+)` \| (.*?) \|(?: .* \|)?$")


def rows_of(document):
    """The rows of the tables that name a call, its file and its clauses."""
    with open(os.path.join(TOP, document), encoding="utf-8") as file:
        for number, line in enumerate(file, 1):
            found = ROW.match(line.rstrip("\n"))
            if found and found[2].endswith(".rt"):
                yield number, found[1], found[2], re.findall(r"`([^`]+)`", found[3])


def faults_of_rows(calls):
    known, wrong = collections.defaultdict(list), []
    for call in calls:
        known[f"crates/{call.crate}/src/{call.file}", call.name].append(call)
    for document in (PROVED, "README.md"):
        for number, name, path, clauses in rows_of(document):
            owner, _, last = name.rpartition("::")
            found = [call for call in known[path, last] if not owner or call.owner.split("<")[0] == owner]
            if not found:
                wrong.append(f"{document}:{number}: {path} has no call {name}")
                continue
            if not any(call.is_public for call in found):
                wrong.append(f"{document}:{number}: {name} in {path} is not public")
            for word in clauses:
                if not any(word == clause.name or re.search(rf"(?<!\w){re.escape(word)}(?!\w)", clause.text) for call in found for clause in call.clauses):
                    wrong.append(f"{document}:{number}: no clause of {name} in {path} is, or names, {word}")
    return wrong


BEHAVIOUR = re.compile(r"^\| ([^|`]+) \| ([A-Z]+): ([^|]+) \| `([^`]+)` `([^`]+)` \| `([^`]+)` \| `([a-z_]+)/([a-z_0-9]+)` \| `(.+)` \|$")


def behaviours():
    """The rows of the table of behaviours."""
    with open(os.path.join(TOP, BEHAVIOURS), encoding="utf-8") as file:
        for number, line in enumerate(file, 1):
            found = BEHAVIOUR.match(line.rstrip("\n"))
            if found:
                yield number, found.groups()
            elif line.startswith("| ") and not line.startswith("| Behaviour |"):
                yield number, None


def tests_named():
    """The names of all cases, and of all tests in Rattle."""
    cases = os.path.join(TOP, "tests", "cases")
    names = set()
    for name in os.listdir(cases):
        with open(os.path.join(cases, name), encoding="utf-8") as file:
            names.update(line[5:].strip() for line in file if line.startswith("case "))
    for text in files_of(None).values():
        names.update(re.findall(r"#\[test\]\s*fn ([a-z_0-9]+)", text))
    return names


def headings(document):
    with open(os.path.join(TOP, "docs", f"{document}.md"), encoding="utf-8") as file:
        return [line.strip("# \n") for line in file if line.startswith("#")]


def faults_of_behaviours(calls):
    tests, wrong = tests_named(), []
    for number, row in behaviours():
        here = f"{BEHAVIOURS}:{number}"
        if not row:
            wrong.append(f"{here}: a row of another form")
            continue
        _, document, rule, name, word, path, crate, plant, test = row
        owner, _, last = name.rpartition("::")
        found = [call for call in calls if f"{call.crate}/src/{call.file}" == path and call.name == last and (not owner or call.owner == owner)]
        if not any(heading.split(" (")[0] == rule for heading in headings(document)):
            wrong.append(f"{here}: docs/{document}.md has no section {rule}")
        if not any(call.is_public for call in found):
            wrong.append(f"{here}: crates/{path} has no public call {name}")
        elif not any(word == clause.name or re.search(rf"(?<!\w){re.escape(word)}(?!\w)", clause.text) for call in found for clause in call.clauses):
            wrong.append(f"{here}: no clause of {name} is, or names, {word}")
        if not any(os.path.exists(os.path.join(TOP, it)) for it in (f"crates/{crate}/must-fail/{plant}.edit", f"plants/{crate}/{plant}.edit")):
            wrong.append(f"{here}: no planted bug {crate}/{plant}")
        if test not in tests:
            wrong.append(f"{here}: no test {test}")
    return wrong


def faults_of_guide():
    """What docs/GUIDE.md shows of the program `guide` that does not stand in it word for word."""
    with open(os.path.join(TOP, "docs", "GUIDE.md"), encoding="utf-8") as file:
        shown = re.findall(r"^```rust\n(.*?)^```$", file.read(), re.M | re.S)
    sources = [text for path, text in files_of(None).items() if path.startswith("crates/guide/")]
    with open(os.path.join(TOP, "crates", "guide", "stdout"), encoding="utf-8") as file:
        printed = file.read()
    with open(os.path.join(TOP, "docs", "GUIDE.md"), encoding="utf-8") as file:
        if printed not in file.read():
            return ["docs/GUIDE.md: what the program prints is not crates/guide/stdout"]
    return [f"docs/GUIDE.md: not in crates/guide: {part.splitlines()[0]}" for part in shown if not any(part in text for text in sources)]


def faults():
    """What the documents name that does not stand in the sources, or has no test or planted bug of that name."""
    calls = calls_of()
    return faults_of_rows(calls) + faults_of_behaviours(calls) + faults_of_guide()


def check():
    wrong = faults()
    rows = sum(1 for document in (PROVED, "README.md") for _ in rows_of(document)) + sum(1 for _ in behaviours())
    print("\n".join(wrong) if wrong else f"{rows} rows of the documents name what stands where they say")
    return 1 if wrong else 0


def words_in(clause):
    """How a clause is told in a table: by its name, or where it has none by the words of definitions that it names."""
    if clause.name:
        return [clause.name]
    return re.findall(r"\b[A-Z][A-Za-z]*[a-z][A-Za-z]*\b", clause.text)[:2] or re.findall(r"\b[a-z]+_[a-z_]+\b", clause.text)[:1]


def table_of(crate, calls):
    """The table of a crate's public calls that carry a claim."""
    lines = []
    for call in calls:
        names = []
        for clause in call.clauses:
            if clause.kind == "ensures":
                names += [word for word in words_in(clause) if word not in names]
        if call.crate == crate and call.is_public and names:
            name = f"{call.owner.split('<')[0]}::{call.name}" if call.owner else call.name
            row = f"| `{name}` | `crates/{crate}/src/{call.file}` | {', '.join(f'`{word}`' for word in names)} |"
            if row not in lines:
                lines.append(row)
    return ["| Call | File | Clauses |", "|---|---|---|", *lines] if lines else []


def write():
    path, calls, out, skips = os.path.join(TOP, PROVED), calls_of(), [], False
    with open(path, encoding="utf-8") as file:
        for line in file.read().split("\n"):
            begins = re.match(r"<!-- calls of ([a-z_]+) -->", line)
            if begins:
                out += [line, *table_of(begins[1], calls)]
                skips = True
            elif line.startswith("<!-- end -->"):
                skips = False
            if not skips:
                out.append(line)
    with open(path, "w", encoding="utf-8") as file:
        file.write("\n".join(out))
    return 0


def main(words):
    match words:
        case ["list"]:
            return listed(None)
        case ["list", revision]:
            return listed(revision)
        case ["compare", revision]:
            return compared(revision)
        case ["check"]:
            return check()
        case ["write"]:
            return write()
    print(__doc__)
    return 2


if __name__ == "__main__":
    sys.exit(main(sys.argv[1:]))

"""What examples/heals and examples/scrub_healed share: the scripts with faults that heal, by which reasons one heals,
runs of them, and the plain store. That is a map from names to contents; it knows no tops, places, copies, faults or
rounds.
"""

import collections
import functools
import itertools
import os
import re
import subprocess
import sys
import tempfile

HERE = os.path.dirname(os.path.abspath(__file__))
EXAMPLES = ("device_comes_back", "device_vanishes_among_writes")
GENERATED = ((7, 100), (8, 20))
SECTOR = 512
POINTER = 128
LEAF = 65536

Request = collections.namedtuple("Request", "number kind name sum body under may_fail")
Content = collections.namedtuple("Content", "front bytes")
# The lines of replies by their numbers, how many bytes at the front of a read stand for pointers, and the numbers of
# the writes whose blocks are left, by their names.
Plain = collections.namedtuple("Plain", "replies fronts left")


class Wrong(Exception):
    """A run isn't as it has to be."""


# ---- scripts


def lines_of(script):
    """The words of each line that isn't skipped."""
    lines = (line.split() for line in script.splitlines())
    return [words for words in lines if words and not words[0].startswith("#")]


def told(script, word):
    """What the comments of this word tell."""
    return re.findall(rf"^# {word}: (.*)$", script, re.MULTILINE)


def body_of(words):
    """The bytes of `data HEX`, `fill HH LEN` or `seq SEED LEN`."""
    if words[0] == "data":
        return bytes.fromhex(words[1])
    if words[0] == "fill":
        return bytes.fromhex(words[1]) * int(words[2])
    state, made = int(words[1]), []
    for _ in range(0, int(words[2]), 8):
        state = (state * 6364136223846793005 + 1442695040888963407) % 2**64
        made.append(state.to_bytes(8, "little"))
    return b"".join(made)[: int(words[2])]


def request_of(words, batch):
    """The request of a line, behind the others of its batch."""
    kind = words[1]
    name = None if kind == "null" else words[2]
    sum_kind, body = (words[3], body_of(words[6:])) if kind == "write" else (None, b"")
    under = int(words[words.index("under") + 1]) if "under" in words else None
    may_fail = kind == "read" and (under is None or batch[under].may_fail)
    if words[-1] in ("must", "canfail"):
        may_fail = words[-1] == "canfail"
    return Request(int(words[0]), kind, name, sum_kind, body, under, may_fail)


def batches_of(script):
    """The requests of each batch by their numbers."""
    batches, batch = [], {}
    for words in lines_of(script):
        if words == ["go"]:
            batches.append(batch)
            batch = {}
        elif words[0].isdigit():
            batch[int(words[0])] = request_of(words, batch)
    return batches


def without_rows(script):
    """The script without its fault rows."""
    return "".join(line for line in script.splitlines(True) if not line.startswith("fault "))


def lacks(script):
    """Why the script isn't one that heals."""
    lines = lines_of(script)
    rows = [words for words in lines if words[0] == "fault"]
    requests = [r for batch in batches_of(script) for r in batch.values()]
    reasons = {
        "wait": any(words[0] == "failmode" and words[1] != "wait" for words in lines),
        "must": any(r.may_fail for r in requests),
        "strangers": any(r.kind == "claim" for r in requests),
        "sum": any(r.sum == "off" for r in requests),
        "honest": any("flip" in row and row[2] != "read" for row in rows),
        "clears": any(int(row[6]) > lines.count(["clear"]) for row in rows),
        "last": bool(rows) and lines[-1] != ["clear"],
    }
    return [reason for reason, so in reasons.items() if so]


def sizes_of(script):
    """The sizes of the images: those that are told, or 64 KiB for each leaf."""
    tops = [words[1:] for words in lines_of(script) if words[0] == "top"]
    leaves = [leaf for top in tops for leaf in itertools.takewhile(str.isdigit, top)]
    return [int(size) for line in told(script, "images") for size in line.split()] or [LEAF] * len(leaves)


# ---- the plain store


def answer_of(tree, store):
    """The error of all requests of a tree, or none."""
    if any(r.kind in ("read", "free") and r.name not in store for r in tree):
        return "ENOENT"
    if any(r.kind == "write" and r.name in store for r in tree):
        return "EEXIST"
    return None


def content_of(r, batch):
    """What a write stores: zeros for the pointers of its children, its data, and zeros to whole sectors."""
    front = POINTER * sum(other.under == r.number for other in batch.values())
    size = -(-(front + len(r.body)) // SECTOR) * SECTOR
    return Content(front, (bytes(front) + r.body).ljust(size, b"\0"))


@functools.cache
def fletcher4(data):
    """The four words."""
    a = b = c = d = 0
    for at in range(0, len(data), 4):
        a += int.from_bytes(data[at : at + 4], "little")
        b += a
        c += b
        d += c
    return tuple(word % 2**64 for word in (a, b, c, d))


def done(r, batch, store):
    """What is shown of a request without error."""
    if r.kind == "write":
        return f"ok {len(content_of(r, batch).bytes)}"
    if r.kind == "read":
        data = store[r.name].bytes
        return f"ok {len(data)} {':'.join(f'{word:x}' for word in fletcher4(data))} data {data.hex()}"
    return "ok"


def trees_of(batch):
    """The requests of each tree."""
    trees = collections.defaultdict(list)
    for r in batch.values():
        root = r
        while root.under is not None:
            root = batch[root.under]
        trees[root.number].append(r)
    return trees.values()


def plain_store(script):
    """What the requests are answered: each tree over the store before its batch."""
    store, plain = {}, Plain({}, {}, {})
    for batch in batches_of(script):
        after = dict(store)
        for tree in trees_of(batch):
            error = answer_of(tree, store)
            for r in tree:
                words = (str(r.number), r.kind, r.name, error or done(r, batch, store))
                plain.replies[r.number] = " ".join(word for word in words if word)
                if error is None and r.kind == "read":
                    plain.fronts[r.number] = store[r.name].front
                elif error is None and r.kind == "write":
                    after[r.name] = content_of(r, batch)
                    plain.left[r.name] = r.number
                elif error is None and r.kind == "free":
                    del after[r.name], plain.left[r.name]
        store = after
    return plain


# ---- runs


def run(program, folder, script, *words):
    """The code and the report of a run over fresh images."""
    images = []
    for at, size in enumerate(sizes_of(script)):
        images.append(f"disk{at}.img")
        with open(os.path.join(folder, images[at]), "wb") as image:
            image.truncate(size)
    words = [program, *words, *images]
    ran = subprocess.run(words, cwd=folder, input=script.encode(), capture_output=True, timeout=120)
    return ran.returncode, ran.stdout.decode()


def image_of(folder, leaf):
    """The bytes of a leaf's image."""
    with open(os.path.join(folder, f"disk{leaf}.img"), "rb") as image:
        return image.read()


def picks(seed):
    """The words for the picks of a seed, or none."""
    return () if seed is None else ("--picks", str(seed))


# ---- all scripts


def generated(program, seed, blocks):
    """The script of `gen`, by docs/FORMATS.md, and also by the program, if it makes scripts."""
    lines = ["top 0 1", "top 2 3", "fault 2 any 0 268435456 0 1 gone", "fault 3 any 0 268435456 0 1 gone"]
    lines.append("fault 0 read 0 268435456 0 2 eio")
    numbers = itertools.count(1)
    for first in range(1, blocks + 1, 8):
        group = range(first, min(first + 8, blocks + 1))
        prios = {i: "async" if i % 2 else "sync" for i in group}
        for i in group:
            kind = f"{'sha256' if i % 4 < 2 else 'fletcher4'} {1 + (i + seed) % 2} {prios[i]}"
            lines.append(f"{next(numbers)} write b{i} {kind} seq {seed + i} {512 * (1 + (11 * i + seed) % 32)}")
        lines += ["go", *(f"{next(numbers)} read b{i} {prios[i]} must" for i in group)]
        lines += ["go", *(f"{next(numbers)} free b{i} must" for i in group), "go"]
    text = "\n".join([*lines, "clear", "clear", ""])
    ran = subprocess.run([program, "gen", str(seed), str(blocks)], capture_output=True)
    if ran.returncode == 0 and ran.stdout.decode() != text:
        sys.exit(f"{sys.argv[0]}: gen {seed} {blocks} makes another script")
    return "# images: 4194304 4194304 4194304 4194304\n" + text


def cases(program):
    """Each script behind its name."""
    with open(os.path.join(HERE, "healing.scripts")) as table:
        parts = re.split(r"^== (\w+)\n", table.read(), flags=re.MULTILINE)
    yield from zip(parts[1::2], parts[2::2])
    for name in EXAMPLES:
        with open(os.path.join(HERE, f"{name}.zio")) as script:
            yield name, script.read()
    for seed, blocks in GENERATED:
        yield f"gen {seed} {blocks}", generated(program, seed, blocks)


def check_each(check, what, heal_alone):
    """Calls `check(program, folder, script, seeds)` for each script, or for those alone that heal, with the program and
    the seeds that the command's words tell, and ends with status 1 where one isn't as it has to be."""
    given = sys.argv[1:] + [None] * 2
    program = os.path.realpath(given[0] or os.path.join(HERE, "../crates/zio_serial/out/zio_serial"))
    if not os.access(program, os.X_OK):
        sys.exit(f"{sys.argv[0]}: no program at {program}: ./build makes it")
    seeds = range(0) if given[1] == "none" else range(int(given[1] or 20) + 1)
    count = failed = 0
    with tempfile.TemporaryDirectory() as folder:
        for name, script in cases(program):
            if heal_alone and told(script, "lacks"):
                continue
            count += 1
            try:
                check(program, folder, script, seeds)
                print(f"{name}: as expected")
            except Wrong as wrong:
                failed += 1
                print(f"{name}: FAILED\n  {wrong}")
    also = f", each that heals also with --picks 0 to {seeds[-1]}" if seeds else ""
    print(f"{count} {what}{also}, {failed} failed")
    sys.exit(0 if count and not failed else 1)

"""A second reader of stores, written from docs/FORMATS.md and docs/RULES.md ("Opening"), and a writer of blobs."""

import hashlib
import os
import re
from collections import namedtuple

LAST_VERSION = 4_294_967_294
EMPTY = hashlib.sha1(b"").digest()

Row = namedtuple("Row", "fingerprint id length")
Table = namedtuple("Table", "id rows payload_sum")
Recipe = namedtuple("Recipe", "format version next length whole rows sparse")


class Damage(Exception):
    """The first bad place: a kind and a number."""

    def __init__(self, kind, number):
        super().__init__(f"{kind} {number}")
        self.kind = kind
        self.number = number

    def line(self):
        return f"error 7: store damaged, {self.kind} {self.number}"


class NoSpelling(Exception):
    """The bytes are no blob of the kind and the number that they are read for."""


def sha1(data):
    return hashlib.sha1(data).digest()


def number_of(set_, version):
    return (set_ << 32) + version


# Files

def file_of(kind, number):
    if kind in ("table", "payload"):
        return f"{kind}-{number:016x}"
    if kind == "floor":
        return f"floor-{number:02x}" if number else "floor"
    set_, version = number >> 32, number & 0xFFFFFFFF
    return f"recipe-{set_:02x}-{version:08x}" if set_ else f"recipe-{version:08x}"


NAMES = [
    ("table", re.compile(r"table-([0-9a-f]{16})")),
    ("payload", re.compile(r"payload-([0-9a-f]{16})")),
    ("recipe", re.compile(r"recipe-(?:([0-9a-f]{2})-)?([0-9a-f]{8})")),
    ("floor", re.compile(r"floor(?:-([0-9a-f]{2}))?")),
]


def name_of(file):
    """The kind and the number of a blob's file; None for any other file."""
    for kind, pattern in NAMES:
        found = pattern.fullmatch(file)
        if not found:
            continue
        digits = found.groups()
        if kind in ("table", "payload"):
            return kind, int(digits[0], 16)
        if digits[0] == "00":
            return None
        set_ = int(digits[0] or "0", 16)
        return kind, set_ if kind == "floor" else number_of(set_, int(digits[1], 16))
    return None


def files_of(folder):
    """The blobs of a folder: bytes by kind and number."""
    blobs = {}
    for entry in os.scandir(folder):
        name = name_of(entry.name)
        if name:
            with open(entry.path, "rb") as file:
                blobs[name] = file.read()
    return blobs


def write_files(blobs, folder):
    os.makedirs(folder, exist_ok=True)
    for (kind, number), data in blobs.items():
        with open(os.path.join(folder, file_of(kind, number)), "wb") as file:
            file.write(data)


# Reading

class Fields:
    def __init__(self, data):
        self.data = data
        self.at = 0

    def take(self, count):
        if self.at + count > len(self.data):
            raise NoSpelling
        part = self.data[self.at:self.at + count]
        self.at += count
        return part

    def number(self, count, low=0, high=None):
        value = int.from_bytes(self.take(count), "big")
        if value < low or (high is not None and value > high):
            raise NoSpelling
        return value

    def magic(self, *wanted):
        found = self.take(4)
        if found not in wanted:
            raise NoSpelling
        return found

    def end(self, set_=0):
        """The last sum, and nothing behind it."""
        before = self.data[:self.at]
        if set_:
            before += set_.to_bytes(4, "big")
        if self.take(20) != sha1(before) or self.at != len(self.data):
            raise NoSpelling


def read_table(data, number):
    fields = Fields(data)
    fields.magic(b"DTB1")
    id_ = fields.number(8, 1)
    count = fields.number(4, 1)
    if id_ != number or len(data) != 56 + 24 * count:
        raise NoSpelling
    rows = [(fields.take(20), fields.number(4, 1, 65_536)) for _ in range(count)]
    payload_sum = fields.take(20)
    fields.end()
    if sum(length for _, length in rows) > 4_194_304 or len({f for f, _ in rows}) != count:
        raise NoSpelling
    return Table(id_, rows, payload_sum)


def read_recipe(data, number):
    set_, version = number >> 32, number & 0xFFFFFFFF
    fields = Fields(data)
    format_ = 1 if fields.magic(b"DRC1", b"DRC2") == b"DRC1" else 2
    if fields.number(4, 1, LAST_VERSION) != version:
        raise NoSpelling
    next_ = fields.number(8, 1, 2**63)
    length = fields.number(8)
    rows = []
    whole = None
    if format_ == 1:
        count = fields.number(4)
        if 32 * count > len(data):
            raise NoSpelling
        for _ in range(count):
            fingerprint, id_, size = fields.take(20), fields.number(8, 1), fields.number(4, 1, 65_536)
            rows.append(Row(fingerprint, id_, size))
    else:
        whole = fields.take(20)
        last = None
        for _ in range(fields.number(4)):
            id_ = fields.number(8, 1)
            if id_ == last:
                raise NoSpelling
            last = id_
            for _ in range(fields.number(4, 1)):
                rows.append(Row(fields.take(20), id_, fields.number(4, 1, 65_536)))
        if not rows and whole != EMPTY:
            raise NoSpelling
    sparse_count = fields.number(4)
    if 8 * sparse_count > len(data):
        raise NoSpelling
    sparse = [fields.number(8) for _ in range(sparse_count)]
    fields.end(set_)
    ids = {row.id for row in rows}
    if (any(id_ >= next_ for id_ in ids) or sum(row.length for row in rows) != length
            or any(a >= b for a, b in zip(sparse, sparse[1:])) or not ids.issuperset(sparse)):
        raise NoSpelling
    return Recipe(format_, version, next_, length, whole, rows, sparse)


def read_floor(data, set_):
    fields = Fields(data)
    fields.magic(b"DFL1")
    floor = fields.number(4, 1, LAST_VERSION)
    fields.end(set_)
    return floor


# Opening, and restoring

class State:
    """What the blobs stand for: floors, recipes by set and version, tables by id."""

    def __init__(self, blobs):
        self.blobs = blobs
        self.floors = {}
        self.recipes = {}
        self.tables = {}

    def versions(self):
        return sorted(self.recipes)

    def whole(self, set_, version):
        """The bytes of a version. A payload that is not whole, and a sum that is another, are damage."""
        recipe = self.recipes[set_, version]
        spots = {}
        out = []
        for row in recipe.rows:
            if row.id not in spots:
                spots[row.id] = self.spots_of(row.id)
            out.append(spots[row.id][row.fingerprint])
        data = b"".join(out)
        if recipe.whole is not None and sha1(data) != recipe.whole:
            raise Damage("recipe", number_of(set_, version))
        return data

    def spots_of(self, id_):
        table = self.tables[id_]
        payload = self.blobs.get(("payload", id_))
        if payload is None or len(payload) != sum(n for _, n in table.rows) or sha1(payload) != table.payload_sum:
            raise Damage("payload", id_)
        spots = {}
        at = 0
        for fingerprint, length in table.rows:
            spots[fingerprint] = payload[at:at + length]
            at += length
        return spots


def opened(blobs):
    """The state that the blobs stand for; `Damage` with the first bad place."""
    state = State(blobs)
    for kind, set_ in sorted(name for name in blobs if name[0] == "floor"):
        try:
            state.floors[set_] = read_floor(blobs[kind, set_], set_)
        except NoSpelling:
            raise Damage("floor", set_) from None
    listed = {}
    for _, number in (name for name in blobs if name[0] == "recipe"):
        set_, version = number >> 32, number & 0xFFFFFFFF
        if state.floors.get(set_, 1) <= version <= LAST_VERSION:
            listed[set_] = max(listed.get(set_, 0), version)
    for set_ in sorted(set(listed) | set(state.floors)):
        floor = state.floors.get(set_, 1)
        last = listed.get(set_, floor if floor > 1 else 0)
        next_ = 1
        for version in range(floor, last + 1):
            number = number_of(set_, version)
            try:
                recipe = read_recipe(blobs[("recipe", number)], number)
            except (KeyError, NoSpelling):
                raise Damage("recipe", number) from None
            if recipe.next < next_:
                raise Damage("recipe", number)
            next_ = recipe.next
            state.recipes[set_, version] = recipe
    for id_ in sorted({row.id for recipe in state.recipes.values() for row in recipe.rows}):
        try:
            state.tables[id_] = read_table(blobs[("table", id_)], id_)
        except (KeyError, NoSpelling):
            raise Damage("table", id_) from None
    chunks = {(id_, *row) for id_, table in state.tables.items() for row in table.rows}
    for set_, version in state.versions():
        for row in state.recipes[set_, version].rows:
            if (row.id, row.fingerprint, row.length) not in chunks:
                raise Damage("recipe", number_of(set_, version))
    return state


# Writing

def summed(data, set_=0):
    return data + sha1(data + (set_.to_bytes(4, "big") if set_ else b""))


def table_blob(table):
    rows = b"".join(f + n.to_bytes(4, "big") for f, n in table.rows)
    return summed(b"DTB1" + table.id.to_bytes(8, "big") + len(table.rows).to_bytes(4, "big") + rows + table.payload_sum)


def floor_blob(floor, set_=0):
    return summed(b"DFL1" + floor.to_bytes(4, "big"), set_)


def runs_of(rows):
    runs = []
    for row in rows:
        if not runs or runs[-1][0].id != row.id:
            runs.append([])
        runs[-1].append(row)
    return runs


def recipe_blob(recipe, set_=0, runs=None):
    """The blob of a recipe in its format; `runs` in place of those that its rows make."""
    head = recipe.version.to_bytes(4, "big") + recipe.next.to_bytes(8, "big") + recipe.length.to_bytes(8, "big")
    tail = len(recipe.sparse).to_bytes(4, "big") + b"".join(id_.to_bytes(8, "big") for id_ in recipe.sparse)
    if recipe.format == 1:
        rows = b"".join(r.fingerprint + r.id.to_bytes(8, "big") + r.length.to_bytes(4, "big") for r in recipe.rows)
        return summed(b"DRC1" + head + len(recipe.rows).to_bytes(4, "big") + rows + tail, set_)
    runs = runs_of(recipe.rows) if runs is None else runs
    body = b"".join(
        run[0].id.to_bytes(8, "big") + len(run).to_bytes(4, "big")
        + b"".join(r.fingerprint + r.length.to_bytes(4, "big") for r in run) for run in runs)
    return summed(b"DRC2" + head + recipe.whole + len(runs).to_bytes(4, "big") + body + tail, set_)


def in_first_format(blobs):
    """The same store with each recipe in format 1."""
    old = dict(blobs)
    for kind, number in blobs:
        if kind == "recipe":
            recipe = read_recipe(blobs[kind, number], number)
            old[kind, number] = recipe_blob(recipe._replace(format=1, whole=None), number >> 32)
    return old

"""Hostile words, scripts and blobs from a seeded generator. A model decides what is refused and what is answered: of words
and scripts the grammars of docs/MANUAL.md (grammar.py), of blobs the formats of docs/FORMATS.md (blobs.py). Each answer is
the model's; no run crashes, and none hangs.

MINUTES=N goes on for N minutes, and not 10."""

import os
import re
import time

import blobs
import common
import grammar

USAGE = "error 2: usage"
BACKUP = re.compile(r"backup (\d+/)?(\d+): (\d+) chunks, (\d+) bytes, \d+ new containers, \d+ bytes written, \d+ sparse")


class Store:
    """What a store and the files beside it have, by the model."""

    def __init__(self, case, program):
        self.case = case
        self.program = program
        self.folder = case.folder("hostile")
        self.kept = {}
        self.floors = {}
        self.files = {f"f{i}": case.stream(size) for i, size in enumerate((0, 1, 10, 300, 5_000, 90_000))}
        for name, data in self.files.items():
            with open(os.path.join(self.folder, name), "wb") as file:
                file.write(data)

    def latest(self, set_):
        return max((version for s, version in self.kept if s == set_), default=0)

    def backed_up(self, set_, data, settings, line):
        """Whether this is the line of a backup of these bytes, which is kept from then on."""
        name = (set_, self.latest(set_) + 1)
        self.kept[name] = data
        found = BACKUP.fullmatch(line)
        if not found or not line.startswith(f"backup {common.label(name)}: ") or int(found[4]) != len(data):
            return False
        size = settings.get("size", 4_096) if settings.get("chunk") == "fixed" else None
        return size is None or int(found[3]) == -(-len(data) // size)

    def restored(self, set_, version, line):
        data = self.kept.get((set_, version))
        if data is None:
            return line == "error 3: version not kept"
        return re.fullmatch(rf"restore {common.label((set_, version))}: {len(data)} bytes, \d+ loads", line) is not None

    def deleted(self, set_, through, line):
        if through >= self.latest(set_):
            return line == "error 10: latest version"
        floor = max(self.floors.get(set_, 1), through + 1)
        self.floors[set_] = floor
        self.kept = {n: data for n, data in self.kept.items() if n[0] != set_ or n[1] > through}
        label = common.label((set_, through))
        return re.fullmatch(rf"delete {label}: floor (\d+/)?{floor}, \d+ containers reclaimed", line) is not None

    def ran(self, lines, report):
        """Whether the report is that of the lines; and which files they write."""
        right, outputs = len(report) == len(lines), {}
        for line, told in zip(lines, report):
            if line.command == "backup":
                data = self.files.get(line.name)
                right &= told == "error 11: place failed" if data is None else self.backed_up(line.set, data, line.settings, told)
            elif line.command == "restore":
                right &= self.restored(line.set, line.number, told)
                outputs[line.name] = self.kept.get((line.set, line.number))
            else:
                right &= self.deleted(line.set, line.number, told)
        return right, outputs

    def written(self, outputs):
        """Whether the files have what was restored to them."""
        right = True
        for name, data in outputs.items():
            path = os.path.join(self.folder, name)
            if data is not None:
                right &= read(path) == data
            if os.path.exists(path):
                if name in self.files:
                    self.files[name] = read(path)
                else:
                    os.unlink(path)
        return right


def read(path):
    try:
        with open(path, "rb") as file:
            return file.read()
    except OSError:
        return None


def status_of(report):
    return next((int(line[6:].split(":")[0]) for line in report if line.startswith("error ")), 0)


# Words

def value_for(draw, allowed):
    if draw.random() < 0.7:
        if isinstance(allowed[0], str):
            return draw.choice(allowed).encode()
        low, high = allowed
        return str(draw.choice([low, high, draw.randint(low, high), min(high, low + draw.randrange(20))])).encode()
    some = allowed if isinstance(allowed[0], int) else (0, 9)
    return draw.choice([
        b"", b"0", b"00", b"01", b"-1", b"+1", b"1 ", b" 1", b"1.0", b"1e3", b"0x10", b"a", b"A", b"fixed", b"FIXED", b"ae",
        b"none", b"both", b"har", b"cap", b"\xff", "\u00e9".encode(), "\u0663".encode(), b"1\n", b"=", b"1=1", b"--set", b"1,0",
        str(some[0] - 1).encode(), str(some[1] + 1).encode(), str(some[1]).encode() + b"0", b"0" + str(some[1]).encode(),
        b"9" * 20, b"9" * 21, b"18446744073709551616", b"4294967296", b"a" * 20, b"a" * 21, b"1" * 4_000,
    ])


def words_from(draw):
    """Words behind the folder, some of them a command."""
    name = draw.choice(list(grammar.COMMANDS) * 4 + ["", "Backup", "backu", "backup ", "help", "-h"])
    known = {**grammar.JOB, **grammar.SET, **grammar.STREAM, **grammar.WORKERS}
    required, optional = grammar.COMMANDS.get(name, ({}, known))
    pairs = [(key, required[key]) for key in required if draw.random() < 0.95]
    pairs += [(key, optional[key]) for key in draw.sample(list(optional), min(len(optional), draw.choice([0, 0, 1, 1, 2, 3, 5])))]
    if draw.random() < 0.1:
        extra = draw.choice(list(known) + grammar.RESERVED_SETTINGS + ["version", "through", "", "Set", "se", "sett"])
        pairs.append((extra, known.get(extra, (1, 16))))
    if pairs and draw.random() < 0.05:
        pairs.append(draw.choice(pairs))
    draw.shuffle(pairs)
    words = [name.encode()]
    for key, allowed in pairs:
        value = value_for(draw, allowed) if draw.random() < 0.3 or isinstance(allowed[0], str) else str(
            draw.randint(allowed[0], min(allowed[1], allowed[0] + draw.choice([1, 5, 100, 10**9])))).encode()
        dashes = b"--" if draw.random() < 0.97 else draw.choice([b"-", b"", b"---"])
        if draw.random() < 0.5:
            words.append(dashes + key.encode() + b"=" + value)
        else:
            words += [dashes + key.encode(), value]
    if draw.random() < 0.06:
        at = draw.randrange(len(words) + 1)
        words.insert(at, draw.choice([b"", b"--", b"-", b"=", b"--=", b"--help", b"\xff\xfe", b"--set", b"1", b"x" * 70_000]))
    if draw.random() < 0.04:
        del words[draw.randrange(len(words))]
    return [word.replace(b"\0", b"") for word in words]


def hostile_words(store, draw):
    """One run of words. Whether the model knows what is to come of it."""
    words = words_from(draw)
    command = grammar.command_of(words)
    if command is not None and command.name == "fill":
        return False
    given = draw.choice(list(store.files.values()))
    script = None
    if command is not None and command.name == "batch":
        given = script_from(draw)
        script = grammar.lines_of(given)
    ended = common.run([store.program, "store", *words], store.folder, given)
    out, err = ended.out.decode(errors="replace"), ended.err.decode(errors="replace")
    what = f"words {words[:12]}"
    if command is None:
        store.case.same(what, (ended.status, out, err), (2, "", USAGE + "\n"))
        return True
    set_ = command.settings.get("set", 0)
    if command.name == "batch":
        scripted(store, what, script, ended)
        return True
    if command.name in ("restore", "show"):
        version = (set_, command.settings["version"])
        data = store.kept.get(version)
        if data is None:
            right = (ended.status, out, err) == (3, "", "error 3: version not kept\n")
        elif command.name == "restore":
            right = ended.status == 0 and ended.out == data and store.restored(*version, err.rstrip("\n"))
        else:
            right = ended.status == 0 and out.startswith(f"version {common.label(version)} length {len(data)} next ") and err == ""
    elif command.name == "migrate":
        right = (ended.status, out, err) == (0, "migrate: 0 recipes\n", "")
    elif command.name == "scrub":
        right = ended.status == 0 and re.fullmatch(r"scrub: \d+ containers, 0 damaged\n", out) and err == ""
    else:
        line = out.rstrip("\n")
        if command.name == "backup":
            right = store.backed_up(set_, given, command.settings, line)
        else:
            right = store.deleted(set_, command.settings["through"], line)
        right = right and ended.status == status_of([line]) and err == ""
    store.case.holds(what, right, ended)
    return True


# Scripts

def good_line(draw, used):
    """A line within the grammar, mostly one that may stand behind the others."""
    key = draw.random()
    set_ = b" set=%d" % draw.choice([0, 1, 2, 255]) if draw.random() < 0.5 else b""
    if key < 0.4:
        words = b""
        for name in draw.sample(list(grammar.JOB), draw.choice([0, 0, 0, 1, 2, 3])):
            words += b" " + name.encode() + b"=" + value_for(draw, grammar.JOB[name]) if draw.random() < 0.2 else b""
        if draw.random() < 0.5:
            words += b" chunk=fixed size=%d" % draw.randint(1, 65_536)
        return b"backup f%d" % draw.randrange(7) + words + set_
    number = draw.choice([0, 1, 1, 2, 2, 3, 4, 5, 9, 4_294_967_295])
    if key < 0.8:
        used[0] += 1
        name = b"f%d" % draw.randrange(7) if draw.random() < 0.03 else b"out%d" % used[0]
        cache = b" cache=%d" % draw.randint(1, 64) if draw.random() < 0.3 else b""
        return b"restore %d " % number + name + cache + set_
    return b"delete %d" % number + set_


def bad_line(draw, line):
    """The line with something wrong in it; it may still be right."""
    at = draw.randrange(len(line) + 1)
    return draw.choice([
        lambda: line[:at] + draw.choice([b" ", b"=", b"\t", b"\r", b"\0", b"\xff", b"0", b"a", b"A", b"-", b".", b"/", b"\x80"]) + line[at:],
        lambda: line[:at] + line[at + 1:],
        lambda: line[:at],
        lambda: line + draw.choice([b" ", b" set=1", b" set=0 set=0", b" set=256", b" cache=0", b" cache=65", b" queue=4", b" x=1", b" size"]),
        lambda: b" " + line,
        lambda: line.replace(b" ", b"  ", 1),
        lambda: line.replace(b" ", b" ../", 1),
        lambda: line.replace(b"f", b"." + b"f", 1),
        lambda: line.replace(b"out", b"o" * draw.choice([60, 63, 64, 65]), 1),
        lambda: line.replace(b"1", draw.choice([b"01", b"4294967296", b"-1", b"1" * 21, b""]), 1),
        lambda: line.upper(),
        lambda: b"",
        lambda: b"# a comment",
        lambda: bytes(draw.randrange(256) for _ in range(draw.randrange(40))).replace(b"\n", b""),
        lambda: b"backup f1 window=%d max=%d" % (draw.randint(1, 65_535), draw.randint(2, 65_536)),
        lambda: b"backup f1 chunk=fixed size=%d container=%d" % (draw.randint(1, 65_536), draw.randint(1, 70_000)),
        lambda: b"backup f1 container=%d max=%d window=1" % (draw.randint(1, 70_000), draw.randint(2, 65_536)),
    ])()


def script_from(draw):
    if draw.random() < 0.002:
        size = grammar.SCRIPT_BYTES + draw.choice([-1, 0, 1, 2])
        line = b"delete 4294967295\n"
        return (line * (size // len(line) + 1))[:size]
    used = [0]
    lines = [good_line(draw, used) for _ in range(draw.choice([0, 1, 1, 2, 3, 5, 8, 12]))]
    if lines and draw.random() < 0.5:
        at = draw.randrange(len(lines))
        lines[at] = bad_line(draw, lines[at])
    if lines and draw.random() < 0.03:
        lines.append(draw.choice(lines))
    script = b"\n".join(lines)
    return script + draw.choice([b"", b"\n", b"\n", b"\n\n"]) if draw.random() < 0.1 else script + (b"\n" if lines else b"")


def scripted(store, what, lines, ended):
    """What came of a run of a script that the model reads as these lines, or as a fault."""
    out, err = ended.out.decode(errors="replace"), ended.err.decode(errors="replace")
    if isinstance(lines, str):
        store.case.same(what, (ended.status, out + err), (12, lines + "\n"))
        return
    report = out.split("\n")
    right = report.pop() == "" and err == ""
    ran, outputs = store.ran(lines, report)
    right = right and ran and ended.status == status_of(report) and store.written(outputs)
    store.case.holds(what, right, (lines, ended))


def hostile_script(store, draw):
    script = script_from(draw)
    ended = common.run([store.program, "store", "batch"], store.folder, script)
    scripted(store, f"script {script[:300]}", grammar.lines_of(script), ended)
    return True


# Blobs

def small_store(case, program):
    folder = case.folder("small")
    first = case.stream(120)
    streams = [(0, first), (0, first[30:] + case.stream(40)), (2, first[:60]), (0, case.stream(35) + first[10:80]), (2, b"")]
    for set_, data in streams:
        words = [program, "store", "backup", "--chunk", "fixed", "--size", "10", "--container", "40", "--set", str(set_)]
        if common.run(words, folder, data).status != 0:
            raise RuntimeError(f"{words}")
    common.run([program, "store", "delete", "--through", "1"], folder)
    return blobs.files_of(os.path.join(folder, "store"))


def number_like(draw, value, bits):
    """A number near another one, or at an end of its range."""
    chosen = draw.choice([0, 1, 2, value - 1, value + 1, 2**bits - 1, 2**(bits - 1), 2**31, 65_536, 65_537, draw.getrandbits(bits)])
    return max(0, chosen) % 2**bits


def set_of(name):
    return {"recipe": name[1] >> 32, "floor": name[1]}.get(name[0], 0)


def summed_again(name, data):
    return data if name[0] == "payload" else blobs.summed(data[:-20], set_of(name))


def other_bytes(draw, name, data):
    """Some bytes changed, put in or taken out, and the sum made right again."""
    data = bytearray(data)
    for _ in range(draw.choice([1, 1, 1, 2, 4])):
        at = draw.randrange(len(data)) if data else 0
        kind = draw.randrange(5)
        if kind == 0 and data:
            data[at] = draw.randrange(256)
        elif kind == 1 and data:
            data[at] ^= 1 << draw.randrange(8)
        elif kind == 2:
            data[at:at] = bytes(draw.randrange(256) for _ in range(draw.choice([1, 4, 8, 20, 24, 32])))
        elif kind == 3:
            del data[at:at + draw.choice([1, 4, 8, 20, 24, 32])]
        elif len(data) >= 8:
            width = draw.choice([4, 8])
            at = draw.randrange(len(data) - width + 1)
            value = int.from_bytes(data[at:at + width], "big")
            data[at:at + width] = number_like(draw, value, 8 * width).to_bytes(width, "big")
    return summed_again(name, bytes(data)) if len(data) >= 20 and draw.random() < 0.9 else bytes(data)


def other_recipe(draw, name, data):
    """A recipe of which some field says something else."""
    recipe = blobs.read_recipe(data, name[1])
    rows, sparse, runs = list(recipe.rows), list(recipe.sparse), None
    ids = sorted({row.id for row in rows}) or [1]
    at = draw.randrange(len(rows)) if rows else 0
    kind = draw.randrange(14)
    if kind == 0:
        recipe = recipe._replace(next=number_like(draw, recipe.next, 64))
    elif kind == 1:
        recipe = recipe._replace(length=number_like(draw, recipe.length, 64))
    elif kind == 2:
        recipe = recipe._replace(version=number_like(draw, recipe.version, 32))
    elif kind == 3 and recipe.whole is not None:
        recipe = recipe._replace(whole=bytes(20) if draw.random() < 0.5 else blobs.EMPTY)
    elif kind == 4 and rows:
        del rows[at]
    elif kind == 5 and rows:
        rows.insert(draw.randrange(len(rows) + 1), rows[at])
    elif kind == 6 and rows:
        rows[at] = rows[at]._replace(id=draw.choice(ids + [0, 1, 9, 2**63, 2**64 - 1]))
    elif kind == 7 and rows:
        rows[at] = rows[at]._replace(length=number_like(draw, rows[at].length, 32))
    elif kind == 8 and rows:
        rows[at] = rows[at]._replace(fingerprint=draw.choice(rows).fingerprint if draw.random() < 0.5 else bytes(20))
    elif kind == 9:
        sparse = draw.choice([ids, ids[::-1], ids[:1], ids[:1] * 2, [0], [ids[-1] + 1], [2**64 - 1], []])
    elif kind == 10 and rows:
        runs = [[row] for row in rows]
    elif kind == 11:
        draw.shuffle(rows)
    elif kind == 12:
        recipe = recipe._replace(format=3 - recipe.format, whole=blobs.EMPTY if not rows else bytes(20))
    if draw.random() < 0.7 and kind in (4, 5, 7):
        recipe = recipe._replace(length=sum(row.length for row in rows) % 2**64)
    recipe = recipe._replace(rows=rows, sparse=sparse)
    return blobs.recipe_blob(recipe, set_of(name), runs)


def other_table(draw, name, data):
    table = blobs.read_table(data, name[1])
    rows = list(table.rows)
    at = draw.randrange(len(rows))
    kind = draw.randrange(7)
    if kind == 0:
        table = table._replace(id=number_like(draw, table.id, 64))
    elif kind == 1:
        rows[at] = (rows[at][0], number_like(draw, rows[at][1], 32))
    elif kind == 2:
        rows[at] = (draw.choice(rows)[0], rows[at][1])
    elif kind == 3:
        rows.append((bytes(20), draw.choice([1, 65_536, 65_537, 0])))
    elif kind == 4:
        del rows[at]
    elif kind == 5:
        table = table._replace(payload_sum=bytes(20))
    else:
        draw.shuffle(rows)
    return blobs.table_blob(table._replace(rows=rows))


def other_floor(draw, name, data):
    return blobs.floor_blob(number_like(draw, blobs.read_floor(data, name[1]), 32), name[1])


def other_payload(draw, name, data):
    data = bytearray(data)
    data[draw.randrange(len(data))] ^= draw.randrange(1, 256)
    return bytes(data[:draw.randrange(len(data))]) if draw.random() < 0.3 else bytes(data)


OTHER = {"recipe": other_recipe, "table": other_table, "floor": other_floor, "payload": other_payload}


def forged(draw, files):
    """The blobs, of which a few say something else."""
    now = dict(files)
    if draw.random() < 0.2:
        now = blobs.in_first_format(now)
    for _ in range(draw.choice([1, 1, 1, 2, 3])):
        name = draw.choice(sorted(now))
        kind = draw.randrange(10)
        if kind < 4:
            now[name] = other_bytes(draw, name, now[name])
        elif kind < 8:
            try:
                now[name] = OTHER[name[0]](draw, name, now[name])
            except (blobs.NoSpelling, ValueError, IndexError):
                pass
        elif kind == 8:
            also = (name[0], draw.choice([0, 1, 2, 3, 4, 5, 9, 2**32 + 1, 2**33 + 3]) if name[0] != "floor" else draw.randrange(4))
            now[also] = now[name]
        elif len(now) > 1:
            del now[name]
    return now


def hostile_blobs(case, program, folder, files, draw):
    """One store of forged blobs: each version is restored, all in one run."""
    now = forged(draw, files)
    store = os.path.join(folder, "store")
    common.shutil.rmtree(store, ignore_errors=True)
    blobs.write_files(now, store)
    names = [(set_, version) for set_ in (0, 1, 2) for version in range(1, 5)]
    script = "".join(f"restore {version} out{set_}.{version} set={set_}\n" for set_, version in names)
    ended = common.run([program, "store", "batch"], folder, script.encode())
    report = ended.out.decode(errors="replace").split("\n")[:-1]
    try:
        state = blobs.opened(now)
        wanted = []
        for name in names:
            try:
                data = state.whole(*name)
                wanted.append(f"restore {common.label(name)}: {len(data)} bytes")
                path = os.path.join(folder, f"out{name[0]}.{name[1]}")
                case.same(f"the bytes of {name} of {told_apart(files, now)}", read(path), data)
            except blobs.Damage as damage:
                wanted.append(damage.line())
            except KeyError:
                wanted.append("error 3: version not kept")
        found = [line.split(" bytes, ")[0] + " bytes" if line.startswith("restore ") else line for line in report]
        status = status_of(wanted)
    except blobs.Damage as damage:
        wanted, status = damage.line() + "\n", 7
        found = ended.out.decode(errors="replace") + ended.err.decode(errors="replace")
    case.same(f"blobs {told_apart(files, now)}", (found, ended.status), (wanted, status))
    for set_, version in names:
        path = os.path.join(folder, f"out{set_}.{version}")
        if os.path.exists(path):
            os.unlink(path)


def told_apart(files, now):
    """The blobs that are forged."""
    return {name: now.get(name, b"").hex()[:400] for name in set(files) | set(now) if files.get(name) != now.get(name)}


WORKERS = 8


def answers(case, worker, end):
    """Hostile input until the end. How much of each kind there was."""
    counts = {"words": 0, "scripts": 0, "blobs": 0}
    files = small_store(case, case.programs[0])
    forging = case.folder("forged")
    turn = 0
    store = None
    while time.monotonic() < end and case.failed < 50:
        program = case.programs[(turn // 60 + worker) % len(case.programs)]
        if turn % 60 == 0:
            store = Store(case, program)
        for _ in range(10):
            counts["words"] += hostile_words(store, case.random)
            counts["scripts"] += hostile_script(store, case.random)
            hostile_blobs(case, program, forging, files, case.random)
            counts["blobs"] += 1
        turn += 1
    return counts


def check(case):
    minutes = float(os.environ.get("MINUTES", "10"))
    if os.access("/dev/shm", os.W_OK):
        common.shutil.rmtree(case.room)
        case.room = common.tempfile.mkdtemp(prefix="hard_", dir="/dev/shm")
    end = time.monotonic() + 60 * minutes
    found = [one for one in case.each([(f"worker {i}", lambda part, i=i: answers(part, i, end)) for i in range(WORKERS)]) if one]
    counts = {kind: sum(one[kind] for one in found) for kind in ("words", "scripts", "blobs")}
    case.say(", ".join(f"{count} hostile {kind}" for kind, count in counts.items()) + f" in {case.seconds():.0f} s, "
             f"{case.failed} answers that are not the model's")

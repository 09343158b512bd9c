"""Runs that are killed or made to fail: what lies on the disk before, what is run, and what may be there behind it."""

import os
from collections import namedtuple

import blobs
import common

FAILED = "error 6: store failed"

KINDS = ["first_backup", "backup", "deletion", "migrate", "batch"]

Line = namedtuple("Line", "command set number name")
Scenario = namedtuple("Scenario", "name before words given files lines states texts clean outputs")


def latest_of(kept, set_):
    return max((version for s, version in kept if s == set_), default=0)


def after(kept, line, files):
    """What is kept behind a line that was done or refused, and how the line of its report begins."""
    if line.command == "backup":
        name = (line.set, latest_of(kept, line.set) + 1)
        return {**kept, name: files[line.name]}, f"backup {common.label(name)}: "
    name = (line.set, line.number)
    if line.command == "restore":
        if name not in kept:
            return kept, "error 3: version not kept"
        return kept, f"restore {common.label(name)}: {len(kept[name])} bytes, "
    if line.number >= latest_of(kept, line.set):
        return kept, "error 10: latest version"
    rest = {n: data for n, data in kept.items() if n[0] != line.set or n[1] > line.number}
    return rest, f"delete {common.label(name)}: floor "


def possible(kept, lines, files, report):
    """The states that may be there behind the lines of a report, from what was kept; and the report's lines that are none
    of these lines'. Each line is done, or refused as the store asks, or refused by a fault of the store: then it may be
    done or not, until a later line writes."""
    also, wrong = [], []
    for line, told in zip(lines, report):
        behind, text = after(kept, line, files)
        if told.startswith(text):
            if behind is not kept:
                kept, also = behind, []
        else:
            if told != FAILED:
                wrong.append(told)
            if behind is not kept:
                also.append(behind)
    return [kept, *also], wrong


def lines_of(ended):
    """The whole lines of a report."""
    return ended.out.decode(errors="replace").split("\n")[:-1]


def status_of(line):
    """The status that a line of the report asks for."""
    return int(line.split(":")[0].split(" ")[1]) if line.startswith("error ") else 0


def text_of(line):
    """The line as a script has it."""
    if line.command == "backup":
        return f"backup {line.name} set={line.set} container=65536\n"
    if line.command == "restore":
        return f"restore {line.number} {line.name} set={line.set}\n"
    return f"delete {line.number} set={line.set}\n"


class Maker:
    """Makes the scenarios of a program, each with what it comes to where nothing disturbs it."""

    def __init__(self, case, program, scale=1):
        self.case = case
        self.program = program
        self.scale = scale

    def changed(self, data, added):
        """The stream with a few bytes taken out and others put in, and more behind it."""
        at = self.case.random.randrange(max(1, len(data)))
        return data[:at] + self.case.stream(300) + data[at + 100:] + self.case.stream(added)

    def store(self, name, streams):
        """A store of these streams, each (set, bytes), backed up in turn; and what it keeps."""
        folder = self.case.folder(name)
        kept = {}
        for set_, data in streams:
            ended = common.run([self.program, "store", "backup", "--container", "65536", "--set", str(set_)], folder, data)
            if ended.status != 0:
                raise RuntimeError(f"{name}: {ended}")
            kept[set_, latest_of(kept, set_) + 1] = data
        return os.path.join(folder, "store"), kept

    def scenario(self, name, before, kept, words, given, files, lines):
        states, texts = [kept], []
        for line in lines:
            state, text = after(states[-1], line, files)
            states.append(state)
            texts.append(text)
        outputs = {}
        for state, line in zip(states, lines):
            if line.command == "restore" and (line.set, line.number) in state:
                outputs[line.name] = state[line.set, line.number]
        work = Work(self.case, self.program, Scenario(name, before, words, given, files, lines, states, texts, {}, outputs))
        ended = work.run([])
        work.case.same(f"{name}: what is told where nothing disturbs it", work.told(ended)[1], True)
        clean = common.blobs_in(work.store)
        return work.scenario._replace(clean=clean)

    def backup(self):
        size = int(300_000 * self.scale)
        first = self.case.stream(size)
        second = self.changed(first, size // 3)
        before, kept = self.store("before_backup", [(0, first), (1, self.case.stream(size // 3)), (0, second)])
        data = self.changed(second, 3 * size)
        return self.scenario("a backup", before, kept, ["backup", "--container", "65536"], data, {"stream": data},
                             [Line("backup", 0, None, "stream")])

    def first_backup(self):
        folder = self.case.folder("before_first")
        data = self.case.stream(int(150_000 * self.scale))
        return self.scenario("a first backup", os.path.join(folder, "store"), {}, ["backup", "--container", "65536"], data,
                             {"stream": data}, [Line("backup", 0, None, "stream")])

    def deletion(self):
        size = int(150_000 * self.scale)
        streams = [(0, self.case.stream(size)) for _ in range(5)] + [(1, self.case.stream(size))]
        streams.append((0, streams[4][1] + streams[5][1]))
        before, kept = self.store("before_deletion", streams)
        return self.scenario("a deletion", before, kept, ["delete", "--through", "4"], b"", {},
                             [Line("delete", 0, 4, None)])

    def migrate(self):
        size = int(120_000 * self.scale)
        streams = []
        data = self.case.stream(size)
        for set_ in (0, 0, 1, 0, 1, 0, 0):
            streams.append((set_, data))
            data = self.changed(data, size // 4)
        before, kept = self.store("before_migrate", streams)
        new = common.blobs_in(before)
        blobs.write_files(blobs.in_first_format(new), before)
        made = self.scenario("a migration", before, kept, ["migrate"], b"", {}, [])
        self.case.same("a migration: the recipes behind it", made.clean, new)
        return made

    def batch(self):
        size = int(200_000 * self.scale)
        first = self.case.stream(size)
        second = self.changed(first, size)
        other = self.case.stream(size)
        before, kept = self.store("before_batch", [(0, first), (0, second), (1, other), (0, self.changed(second, size))])
        files = {"a": self.changed(second, size), "b": self.changed(other, size // 2), "c": self.case.stream(size)}
        lines = [
            Line("restore", 0, 1, "out1"), Line("backup", 0, None, "a"), Line("restore", 0, 2, "out2"),
            Line("restore", 0, 4, "out3"), Line("backup", 1, None, "b"), Line("delete", 0, 2, None),
            Line("restore", 1, 1, "out4"), Line("restore", 0, 1, "out5"), Line("backup", 0, None, "c"),
            Line("delete", 1, 1, None), Line("restore", 0, 3, "out6"), Line("restore", 1, 2, "out7"),
            Line("backup", 1, None, "a"), Line("restore", 0, 5, "out8"), Line("delete", 0, 4, None),
        ]
        given = "".join(text_of(line) for line in lines).encode()
        return self.scenario("a batch", before, kept, ["batch"], given, files, lines)


class Work:
    """A folder in which a scenario is run again and again."""

    def __init__(self, case, program, scenario):
        self.case = case
        self.program = program
        self.scenario = scenario
        self.folder = case.folder("work")
        self.around = os.path.join(self.folder, "around")
        self.store = os.path.join(self.around, "store")

    def words(self):
        return [self.program, self.store, *self.scenario.words]

    def lay(self):
        """The disk as it is before the run."""
        common.shutil.rmtree(self.folder, ignore_errors=True)
        os.makedirs(self.around)
        if os.path.isdir(self.scenario.before):
            common.shutil.copytree(self.scenario.before, self.store)
        for name, data in self.scenario.files.items():
            with open(os.path.join(self.folder, name), "wb") as file:
                file.write(data)

    def run(self, prefix):
        """Runs the scenario anew, by these words in front of its own."""
        self.lay()
        return common.run([*prefix, *self.words()], self.folder, self.scenario.given)

    def again(self):
        """Runs it once more over what is there."""
        return common.run(self.words(), self.folder, self.scenario.given)

    def told(self, ended):
        """How many whole lines the report has, and whether they are the first of those that an undisturbed run prints."""
        lines = lines_of(ended)
        if not self.scenario.lines:
            return len(lines), all(line.startswith("migrate: ") for line in lines)
        texts = self.scenario.texts
        return len(lines), len(lines) <= len(texts) and all(line.startswith(text) for line, text in zip(lines, texts))

    def status(self):
        """The status of an undisturbed run."""
        return next((status_of(text) for text in self.scenario.texts if status_of(text)), 0)

    def output(self, name):
        path = os.path.join(self.folder, name)
        if not os.path.exists(path):
            return None
        with open(path, "rb") as file:
            return file.read()

    # What is checked behind a run

    def stands(self, what, states):
        """That the store has exactly one of these states, by our own reader and by the program. The state, or None."""
        try:
            found = common.versions_in(self.store)
        except blobs.Damage as damage:
            self.case.holds(what, False, damage.line())
            return None
        self.case.holds(f"{what}: a state that may be there", found in states,
                        f"there is {sorted(found)} of {[sorted(state) for state in states]}")
        told = common.versions_by(self.program, self.store, self.names() | set(found), self.folder)
        self.case.same(f"{what}: what the program restores", told, {name: found.get(name) for name in told})
        return found if found in states else None

    def wrote(self, what, done):
        """That each of the first restores, so many lines of the report, has all its bytes, and each other one a front."""
        for i, line in enumerate(self.scenario.lines):
            if line.command != "restore":
                continue
            wanted = self.scenario.outputs.get(line.name, b"")
            found = self.output(line.name)
            if i < done and line.name in self.scenario.outputs:
                self.case.same(f"{what}: the bytes of {line.name}", found, wanted)
            else:
                self.case.holds(f"{what}: a front of {line.name}", wanted.startswith(found or b""), common.short(found))

    def mends(self, what, state):
        """That the next run does what it says, and leaves what it would have left with nothing before it."""
        lines, texts = self.scenario.lines, self.scenario.texts
        if len(lines) > 1:
            data = self.case.stream(70_000)
            ended = common.run([self.program, self.store, "backup"], self.folder, data)
            name = (0, latest_of(state, 0) + 1)
            self.case.holds(f"{what}: the next backup", ended.out.startswith(f"backup {common.label(name)}: ".encode()), ended)
            self.stands(f"{what}: behind the next backup", [{**state, name: data}])
            return
        ended = self.again()
        self.case.same(f"{what}: status of the next run", ended.status, 0)
        if lines and lines[0].command == "backup" and state != self.scenario.states[0]:
            name = (lines[0].set, latest_of(state, lines[0].set) + 1)
            self.stands(f"{what}: behind the next run", [{**state, name: self.scenario.given}])
            return
        self.case.holds(f"{what}: the line of the next run", self.told(ended) == (1, True), ended)
        self.case.holds(f"{what}: the blobs behind the next run", common.blobs_in(self.store) == self.scenario.clean)

    def names(self):
        """All versions that the scenario ever has, and one more of each set."""
        names = {name for state in self.scenario.states for name in state}
        return names | {(0, latest_of(names, 0) + 1), (1, latest_of(names, 1) + 1)}

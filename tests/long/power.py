"""Power is lost on a real file system: ext4 and XFS on a loop device, shut down without a flush at some moment of backups,
deletions and scripts, unmounted, mounted again and opened. Half of the moments are times, drawn by the seed; the others
are calls of the program on the store, in front of which it is stopped. Each version that was acknowledged restores, and
each line that was not is done whole or not at all. One store lives through all moments of its disk, of which there are
two of each file system.

MOMENTS=N tries N moments, and not 500. What the host's page cache holds of the image counts as the disk: a disk's own cache
of writes is not part of this."""

import ctypes
import os
import shutil
import subprocess
import threading
import time

import blobs
import common
import traced
from scenarios import Line, lines_of, latest_of, possible, text_of

NEW_NAMESPACE = 0x20000
# write, close, fsync, ftruncate, rename, unlink, openat
CHANGES = {1, 3, 74, 77, 82, 87, 257}
MAKE = {"ext4": ["mkfs.ext4", "-q", "-F"], "xfs": ["mkfs.xfs", "-q", "-f"]}


def call(*words):
    return subprocess.run(words, capture_output=True, check=False).returncode == 0


def private_mounts():
    """Mounts of this process and those that it starts, which go with them."""
    if os.geteuid() != 0:
        raise common.Skipped("only root may mount")
    if ctypes.CDLL(None).unshare(NEW_NAMESPACE) != 0 or not call("mount", "--make-rprivate", "/"):
        raise common.Skipped("there is no mount namespace here")


class Disk:
    """A file system on a loop device, with the store in it."""

    def __init__(self, case, kind):
        self.case = case
        self.kind = kind
        self.image = os.path.join(case.room, f"{kind}.image")
        self.mounted = case.folder(f"{kind}.mounted")
        self.store = os.path.join(self.mounted, "store")
        self.folder = case.folder(f"{kind}.folder")
        with open(self.image, "wb") as file:
            file.truncate(512 << 20)
        for tool in (MAKE[kind][0], "xfs_io", "mount"):
            if not shutil.which(tool):
                raise common.Skipped(f"there is no {tool}")
        if not call(*MAKE[kind], self.image) or not call("mount", "-o", "loop", self.image, self.mounted):
            raise common.Skipped(f"no {kind} on a loop device may be mounted here")
        self.unsynced = self.lost = 0
        self.lost_at = 0.0

    def lose_power(self):
        """Shuts the file system down; a file that was written just before, and not brought to the disk, shows what goes."""
        self.unsynced += 1
        with open(os.path.join(self.mounted, f"unsynced{self.unsynced}"), "wb") as file:
            file.write(b"unsynced")
        self.lost_at = time.monotonic()
        if not call("xfs_io", "-x", "-c", "shutdown", self.mounted):
            raise RuntimeError(f"{self.kind} could not be shut down")

    def mount_again(self):
        if not call("umount", self.mounted) or not call("mount", "-o", "loop", self.image, self.mounted):
            raise RuntimeError(f"{self.kind} could not be mounted again")
        path = os.path.join(self.mounted, f"unsynced{self.unsynced}")
        if not os.path.exists(path) or os.path.getsize(path) == 0:
            self.lost += 1
        if os.path.exists(path):
            os.unlink(path)

    def close(self):
        call("umount", self.mounted)
        os.unlink(self.image)


class Life:
    """What happens to a store: lines, drawn by the seed, and what is known of it behind each."""

    def __init__(self, case, program, disk):
        self.case = case
        self.program = program
        self.disk = disk
        self.kept = {}
        self.last = case.stream(400_000)
        self.acknowledged = 0
        self.cut = 0
        self.undone = 0
        self.through = 0

    def stream(self):
        """Mostly what was there before, as backups are."""
        draw = self.case.random
        size = len(self.last)
        at = draw.randrange(size // 2)
        added = self.case.stream(draw.choice([1_000, 100_000, 300_000, 900_000]))
        self.last = (self.last[:at] + added + self.last[at + size // 3:])[-1_000_000:]
        return self.last

    def line(self, at):
        draw = self.case.random
        set_ = draw.randrange(3)
        latest = latest_of(self.kept, set_)
        count = sum(name[0] == set_ for name in self.kept)
        kind = draw.randrange(10)
        if latest < 2 or kind < (4 if count > 3 else 7):
            return Line("backup", set_, None, f"in{at}")
        if kind < 9:
            return Line("delete", set_, max(1, latest - draw.randrange(1, 3)), None)
        return Line("restore", set_, max(1, latest - draw.randrange(3)), f"out{at}")

    def lines(self):
        """The lines of a run, and the files that they read: one in three runs is a script."""
        count = self.case.random.randrange(2, 6) if self.case.random.randrange(3) == 0 else 1
        lines = [self.line(at) for at in range(count)]
        return lines, {line.name: self.stream() for line in lines if line.command == "backup"}

    def words(self, lines, files):
        line = lines[0]
        if len(lines) > 1:
            for name, data in files.items():
                with open(os.path.join(self.disk.folder, name), "wb") as file:
                    file.write(data)
            return ["batch"], "".join(text_of(line) for line in lines).encode()
        set_ = ["--set", str(line.set)]
        if line.command == "backup":
            return ["backup", "--container", "65536", *set_], files[line.name]
        if line.command == "delete":
            return ["delete", "--through", str(line.number), *set_], b""
        return ["restore", "--version", str(line.number), *set_], b""

    def run(self, at=0):
        """One run, in which power is lost in front of a call of that place, if there is one. The states that may be there;
        whether it went through; how many such calls there were."""
        lines, files = self.lines()
        words, given = self.words(lines, files)
        words = [self.program, self.disk.store, *words]
        if at:
            ended, calls = traced.run(words, self.disk.folder, given, self.disk.store, CHANGES, at,
                                      lambda pid, registers: self.disk.lose_power())
        else:
            ended, calls = common.run(words, self.disk.folder, given), 0
        if lines[0].command == "restore" and len(lines) == 1:
            return [self.kept], ended.status in (0, 3), calls
        report = lines_of(ended)
        states, wrong = possible(self.kept, lines, files, report)
        self.case.same(f"{self.disk.kind}: lines that are none of this run", wrong, [])
        self.acknowledged += sum(not told.startswith("error ") for told in report)
        return states, ended.status in (0, 3, 10), calls

    def until_power_goes(self, seconds):
        """Runs, until power is lost so many seconds on. The states that may be there."""
        timer = threading.Timer(seconds, self.disk.lose_power)
        timer.start()
        states = [self.kept]
        while True:
            began = time.monotonic()
            states, through, _ = self.run()
            if not through:
                break
            self.kept = states[0]
            if not timer.is_alive():
                break
        timer.join()
        return states, not through and began < self.disk.lost_at

    def at_a_call(self):
        """Some whole runs, and then one in which power is lost in front of a call."""
        for _ in range(self.case.random.randrange(2)):
            states, through, _ = self.run()
            self.case.holds(f"{self.disk.kind}: a run that nothing disturbs", through)
            self.kept = states[0]
        at = self.case.random.randrange(1, 220)
        states, through, calls = self.run(at)
        if calls < at:
            self.kept = states[0]
            self.disk.lose_power()
            return [self.kept], False
        return states, not through

    def moment(self, number):
        what = f"{self.disk.kind}, moment {number}"
        if number % 2:
            states, cut = self.until_power_goes(self.case.random.random() * 0.6)
        else:
            states, cut = self.at_a_call()
        self.cut += cut
        self.disk.mount_again()
        try:
            found = common.versions_in(self.disk.store)
        except blobs.Damage as damage:
            self.case.holds(what, False, damage.line())
            return False
        self.case.holds(f"{what}: what was acknowledged is there", found in states,
                        f"there is {sorted(found)} of {[sorted(state) for state in states]}")
        names = set(found) | {name for state in states for name in state}
        told = common.versions_by(self.program, self.disk.store, names, self.disk.folder)
        self.case.same(f"{what}: what the program restores", told, {name: found.get(name) for name in names})
        if found != states[0]:
            self.through += 1
        elif len(states) > 1:
            self.undone += 1
        self.kept = found
        return found in states


DISKS = 2


def lives(case, kind, at, moments):
    """A store through so many moments of one disk. The numbers that are told, or why it was skipped."""
    try:
        disk = Disk(case, kind)
    except common.Skipped as why:
        return str(why)
    life = Life(case, case.programs[0], disk)
    tried = 0
    try:
        for number in range(moments):
            life.program = case.programs[number // 2 % len(case.programs)]
            tried += 1
            if not life.moment(number):
                break
    finally:
        disk.close()
    case.holds(f"{kind}, disk {at}: files that were not synced were lost", disk.lost > 0, disk.lost)
    return tried, life.cut, life.acknowledged, life.through, life.undone, disk.unsynced, disk.lost


def check(case):
    traced.needed()
    private_mounts()
    moments = int(os.environ.get("MOMENTS", "500"))
    parts = [(kind, at) for kind in MAKE for at in range(DISKS)]
    found = case.each([
        (f"{kind} {at}", lambda part, kind=kind, at=at, i=i: lives(part, kind, at, (moments + i) // len(parts)))
        for i, (kind, at) in enumerate(parts)])
    for i, kind in enumerate(MAKE):
        shares = [one for one in found[i * DISKS:(i + 1) * DISKS] if isinstance(one, list)]
        for why in {one for one in found[i * DISKS:(i + 1) * DISKS] if isinstance(one, str)}:
            print(f"skipped: {case.name}: {kind}: {why}", flush=True)
        if shares:
            tried, cut, acknowledged, through, undone, unsynced, lost = (sum(one[i] for one in shares) for i in range(7))
            case.say(f"{kind}, {len(shares)} disks: {tried} moments, {cut} in the middle of a run, {acknowledged} lines "
                     f"acknowledged; of the runs cut off {through} were done and {undone} were not; of {unsynced} files that "
                     f"were not synced {lost} were gone")

"""A store on a distributed file system: GlusterFS with three copies, on three bricks of this host, in name spaces of its
own. A brick is killed in the middle of each backup or deletion, and comes back behind it; every version restores on two
clients, and in the end from each brick alone. Then two of three bricks go, and the run is refused by name.

ROUNDS=N is for N runs in which a brick goes, and not nine."""

import ctypes
import os
import re
import shutil
import signal
import subprocess
import sys
import time

import blobs
import common

HOST = "10.99.0.1"
ROUNDS = int(os.environ.get("ROUNDS", "9"))
INSIDE = "HARD_INSIDE"


def call(*words, timeout=60):
    return subprocess.run(words, capture_output=True, text=True, check=False, timeout=timeout)


def must(*words):
    done = call(*words)
    if done.returncode:
        raise common.Skipped(f"{' '.join(words)}: {(done.stderr or done.stdout).strip()[:200]}")
    return done.stdout


def dies_with_us():
    """The process that this runs in is killed when the one that started it ends."""
    ctypes.CDLL(None).prctl(1, signal.SIGKILL)


def inside_of_its_own(case):
    """Runs this check again in name spaces of mounts, processes and the network, which end with it. A shell is the first
    process there, since the bricks that are killed have to be waited for, or they count as running."""
    spaces = ["unshare", "--mount", "--net", "--pid", "--fork", "--kill-child", "--mount-proc"]
    hard = os.path.join(os.path.dirname(os.path.dirname(os.path.realpath(__file__))), "hard")
    if call(*spaces, "true").returncode:
        raise common.Skipped("there are no name spaces here")
    for program in case.programs:
        environment = {**os.environ, INSIDE: "yes", "SEED": str(case.seed), "PROGRAM": program,
                       "TMPDIR": case.room}
        words = [*spaces, "bash", "-c", '"$@"; exit $?', "bash", sys.executable, hard, case.name]
        done = subprocess.run(words, env=environment, stdout=subprocess.PIPE, text=True, check=False, preexec_fn=dies_with_us)
        for line in done.stdout.splitlines():
            if line.startswith(("FAILED", "skipped", f"{case.name}: ")) and " passed, " not in line:
                print(line.replace(f"{case.name}: ", f"{case.name}: {os.path.basename(program)}, ", 1), flush=True)
        counts = re.findall(r"^(\d+) passed, (\d+) failed$", done.stdout, re.M)
        case.passed += int(counts[-1][0]) if counts else 0
        case.failed += int(counts[-1][1]) if counts else 1


class Volume:
    def __init__(self, case):
        self.case = case
        self.bricks = [case.folder(f"brick{i}") for i in range(3)]
        for name, place in (("lib", "/var/lib/glusterd"), ("log", "/var/log/glusterfs"), ("run", "/run/gluster")):
            os.makedirs(place, exist_ok=True)
            must("mount", "--bind", case.folder(name), place)
        must("ip", "link", "set", "lo", "up")
        must("ip", "address", "add", f"{HOST}/24", "dev", "lo")
        must("glusterd")
        self.told("volume", "create", "v", "replica", "3", *(f"{HOST}:{brick}" for brick in self.bricks), "force")
        self.told("volume", "start", "v")
        self.clients = [case.folder("client0"), case.folder("client1")]
        for client in self.clients:
            must("mount", "-t", "glusterfs", f"{HOST}:/v", client)

    def told(self, *words):
        return must("gluster", "--mode=script", *words)

    def kill(self, brick):
        folder = "/run/gluster/vols/v"
        (file,) = [name for name in os.listdir(folder) if name.endswith(f"-brick{brick}.pid")]
        with open(os.path.join(folder, file), encoding="ascii") as pid:
            os.kill(int(pid.read()), signal.SIGKILL)

    def serves(self, client):
        """Whether a client has found the bricks again, and takes writes."""
        try:
            path = os.path.join(client, "asked")
            with open(path, "wb") as file:
                file.write(b"asked")
            os.unlink(path)
        except OSError:
            return False
        return True

    def heal(self):
        """Starts the bricks that are gone, and waits until all three have the same. Whether that came."""
        self.told("volume", "start", "v", "force")
        for _ in range(240):
            left = re.findall(r"Number of entries: (\S+)", call("gluster", "volume", "heal", "v", "info").stdout)
            if left == ["0", "0", "0"] and all(map(self.serves, self.clients)):
                return True
            call("gluster", "volume", "heal", "v")
            time.sleep(0.5)
        return False


class Life:
    def __init__(self, case, volume):
        self.case = case
        self.program = case.programs[0]
        self.volume = volume
        self.store = os.path.join(volume.clients[0], "store")
        self.folder = case.folder("folder")
        self.kept = {}
        self.last = case.stream(3_000_000)
        self.seconds = 0.0

    def run(self, words, given, bricks):
        """A run, in the middle of whose stream these bricks are killed."""
        began = time.monotonic()
        with subprocess.Popen([self.program, self.store, *words], cwd=self.folder, stdin=subprocess.PIPE,
                              stdout=subprocess.PIPE, stderr=subprocess.PIPE) as process:
            try:
                process.stdin.write(given[:len(given) // 2])
                process.stdin.flush()
                time.sleep(self.case.random.random() * 0.2)
                for brick in bricks:
                    self.volume.kill(brick)
                process.stdin.write(given[len(given) // 2:])
            except BrokenPipeError:
                pass
            out, err = process.communicate(timeout=300)
        self.seconds += time.monotonic() - began
        return common.Ended(process.returncode, out, err)

    def stands(self, what, states):
        """On both clients, by the program and by our own reader."""
        for i, client in enumerate(self.volume.clients):
            store = os.path.join(client, "store")
            try:
                found = common.versions_in(store)
            except (blobs.Damage, OSError) as error:
                self.case.holds(f"{what}, client {i}", False, error)
                continue
            self.case.holds(f"{what}, client {i}: versions", found in states, sorted(found))
            told = common.versions_by(self.program, store, states[-1], self.folder)
            wanted = {name: found.get(name) for name in states[-1]}
            self.case.same(f"{what}, client {i}: what the program restores", told, wanted)
            self.kept = found

    def backup(self, what, bricks, quorum):
        draw = self.case.random
        at = draw.randrange(len(self.last) // 2)
        data = (self.last[:at] + self.case.stream(1_500_000) + self.last[at + 1000:])[-4_000_000:]
        name = (0, max((version for _, version in self.kept), default=0) + 1)
        ended = self.run(["backup", "--container", "262144"], data, bricks)
        behind = {**self.kept, name: data}
        if quorum:
            self.case.holds(f"{what}: its line", ended.out.startswith(f"backup {name[1]}: ".encode()), ended)
            self.last = data
        else:
            told = (ended.out + ended.err).decode(errors="replace")
            self.case.holds(f"{what}: a refusal by name", (ended.status, told) == (6, "error 6: store failed\n"), ended)
        return [behind] if quorum else [self.kept, behind]

    def deletion(self, what, bricks):
        through = max(version for _, version in self.kept) - 2
        ended = self.run(["delete", "--through", str(through)], b"", bricks)
        self.case.holds(f"{what}: its line", ended.out.startswith(f"delete {through}: ".encode()), ended)
        return [{name: data for name, data in self.kept.items() if name[1] > through}]


def second_client(life):
    """What a run on another client is told while one has the store."""
    first = subprocess.Popen([life.program, life.store, "backup", "--set", "9"], cwd=life.folder, stdin=subprocess.PIPE,
                             stdout=subprocess.DEVNULL, stderr=subprocess.DEVNULL)
    time.sleep(1.5)
    told = []
    for client in life.volume.clients:
        words = [life.program, os.path.join(client, "store"), "restore", "--version", "999"]
        told.append(common.run(words, life.folder).err.decode(errors="replace").strip())
    first.kill()
    first.wait()
    life.case.say(f"beside a run on one client, another run is told on the same client '{told[0]}', and on another '{told[1]}'")
    life.case.same("a second run on one client", told[0], "error 6: store failed")


def check(case):
    if os.geteuid() != 0 or not shutil.which("glusterd"):
        raise common.Skipped("GlusterFS wants root and Debian's glusterfs-server")
    if INSIDE not in os.environ:
        inside_of_its_own(case)
        return
    volume = Volume(case)
    life = Life(case, volume)
    for number in range(ROUNDS):
        what = f"round {number}"
        bricks = [case.random.randrange(3)]
        states = life.deletion(what, bricks) if number % 3 == 2 else life.backup(what, bricks, True)
        life.stands(f"{what}, a brick gone", states)
        case.holds(f"{what}: the bricks are the same again", volume.heal())
        life.stands(f"{what}, all bricks", states)
    second_client(life)
    states = life.backup("two bricks gone", [0, 1], False)
    case.holds("behind two bricks that went: the same again", volume.heal())
    life.stands("behind two bricks that went", states)
    states = life.backup("at last", [], True)
    life.stands("at last", states)
    case.holds("at last: the same", volume.heal())
    for i, brick in enumerate(volume.bricks):
        case.same(f"brick {i} by itself", common.versions_in(os.path.join(brick, "store")), life.kept)
    case.say(f"{ROUNDS} runs in which a brick was killed, one in which two were; {len(life.kept)} versions in the end, whole on "
             f"both clients and on each brick alone; the runs took {life.seconds:.0f} s")

"""What the long checks share: programs, streams from the seed, counts, and the calls of a program on a store."""

import hashlib
import json
import os
import random
import re
import shutil
import subprocess
import sys
import tempfile
import time
import traceback
from collections import Counter, namedtuple

import blobs

Ended = namedtuple("Ended", "status out err")


class Skipped(Exception):
    """The host does not allow a check; the text says why."""


class Case:
    """A check that runs: its room, its seed, and what it has come to."""

    def __init__(self, name, programs, seed, part=""):
        self.name = name
        self.programs = programs
        self.seed = seed
        self.inputs = f"{seed} {name} {part}".rstrip()
        self.random = random.Random(self.inputs)
        self.streams = 0
        self.passed = 0
        self.failed = 0
        self.began = time.monotonic()
        self.room = os.path.realpath(tempfile.mkdtemp(prefix="hard_"))

    def close(self):
        shutil.rmtree(self.room, ignore_errors=True)

    def say(self, text):
        print(f"{self.name}: {text}", flush=True)

    def seconds(self):
        return time.monotonic() - self.began

    def holds(self, what, truth, found=""):
        """Counts a check. The first twenty that fail are told."""
        if truth:
            self.passed += 1
            return
        self.failed += 1
        if self.failed <= 20:
            print(f"FAILED: {self.name}: {what}: {str(found)[:1000]}", flush=True)

    def same(self, what, found, wanted):
        self.holds(what, found == wanted, f"found {short(found)}, wanted {short(wanted)}")

    def stream(self, count):
        """The next bytes that the seed makes."""
        self.streams += 1
        return hashlib.shake_128(f"{self.inputs} {self.streams}".encode()).digest(count)

    def each(self, parts):
        """Runs parts of this check, each a name and a function of a case, in processes of their own, JOBS at a time. The
        inputs of a part come from the seed and its name. What the functions return, in order, as JSON has it."""
        jobs = int(os.environ.get("JOBS", 2 * (os.cpu_count() or 1)))
        waiting, running, found = list(enumerate(parts)), {}, [None] * len(parts)
        while waiting or running:
            while waiting and len(running) < jobs:
                at, (name, function) = waiting.pop(0)
                running[self.begun(at, name, function)] = at
            pid, _ = os.wait()
            if pid not in running:
                continue
            at = running.pop(pid)
            path = os.path.join(self.room, f"part{at}")
            try:
                with open(path, encoding="utf-8") as file:
                    passed, failed, found[at] = json.load(file)
            except (OSError, ValueError):
                passed, failed = 0, 1
                print(f"FAILED: {self.name}: {parts[at][0]}: cut off", flush=True)
            self.passed += passed
            self.failed += failed
        return found

    def begun(self, at, name, function):
        """The process in which a part runs."""
        sys.stdout.flush()
        pid = os.fork()
        if pid:
            return pid
        status = 1
        try:
            room = os.path.join(self.room, f"room{at}")
            os.mkdir(room)
            part = Case(self.name, self.programs, self.seed, name)
            part.close()
            part.room = room
            returned = function(part)
            with open(os.path.join(self.room, f"part{at}"), "w", encoding="utf-8") as file:
                json.dump([part.passed, part.failed, returned], file)
            part.close()
            status = 0
        except BaseException:
            traceback.print_exc()
        finally:
            sys.stdout.flush()
            os._exit(status)

    def folder(self, name):
        """A new and empty folder of the room."""
        path = os.path.join(self.room, name)
        shutil.rmtree(path, ignore_errors=True)
        os.makedirs(path)
        return path


def short(value):
    text = repr(value)
    return text if len(text) <= 400 else f"{text[:400]}.. ({len(text)})"


def run(words, folder, given=b"", timeout=120):
    """Runs the words in the folder. Its status is below 0 where a signal ended it, and None where it did not end."""
    try:
        done = subprocess.run(words, cwd=folder, input=given, capture_output=True, timeout=timeout, check=False)
    except subprocess.TimeoutExpired as late:
        return Ended(None, late.stdout or b"", late.stderr or b"")
    return Ended(done.returncode, done.stdout, done.stderr)


def copy_of(source, target):
    shutil.rmtree(target, ignore_errors=True)
    shutil.copytree(source, target)


# What a store has

def versions_in(store):
    """By our own reader: the bytes of each version that is kept; `blobs.Damage`."""
    try:
        state = blobs.opened(blobs.files_of(store))
    except FileNotFoundError:
        return {}
    return {name: state.whole(*name) for name in state.versions()}


def label(name):
    set_, version = name
    return f"{set_}/{version}" if set_ else f"{version}"


def versions_by(program, store, names, folder):
    """By the program, in one run of a script: what each of these versions is restored to, or None where it is not kept.
    Anything else that the program tells is an error's text in place of the bytes."""
    names = sorted(names)
    script = "".join(f"restore {version} back{i} set={set_}\n" for i, (set_, version) in enumerate(names))
    ended = run([program, store, "batch"], folder, script.encode())
    lines = ended.out.decode(errors="replace").splitlines()
    found = {}
    for i, name in enumerate(names):
        line = lines[i] if i < len(lines) else (ended.err.decode(errors="replace") or f"status {ended.status}")
        path = os.path.join(folder, f"back{i}")
        data = b""
        if os.path.exists(path):
            with open(path, "rb") as file:
                data = file.read()
            os.unlink(path)
        if line.startswith(f"restore {label(name)}: {len(data)} bytes, "):
            found[name] = data
        elif line == "error 3: version not kept":
            found[name] = None
        else:
            found[name] = line
    return found


def blobs_in(store):
    """The files of a store that are blobs; what was written and has no name yet is left out."""
    return blobs.files_of(store)


# System calls

CALL = re.compile(r"^(\d+) +([a-z0-9_]+)\((.*)$")


def needs_strace():
    if not shutil.which("strace"):
        raise Skipped("there is no strace")
    if subprocess.run(["strace", "-o", "/dev/null", "true"], capture_output=True, check=False).returncode:
        raise Skipped("strace may trace nothing here")


Calls = namedtuple("Calls", "counts paths ended")


def calls_on(store, words, folder, given=b""):
    """Runs the words, and counts the system calls that touch the store or the folder that it lies in: how often the thread
    that made most of them made each, and the paths."""
    log = os.path.join(folder, "calls.log")
    ended = run(["strace", "-f", "-y", "-s", "0", "-o", log, "-e", "trace=%file,%desc", *words], folder, given)
    around = os.path.dirname(store)
    pattern = re.compile(rf'(?<!AT_FDCWD)[<"]({re.escape(store)}(?:/[^">]*)?|{re.escape(around)})[">]')
    counts = {}
    paths = {store, around}
    with open(log, encoding="utf-8", errors="replace") as lines:
        for line in lines:
            call = CALL.match(line)
            if not call or call[2] == "execve":
                continue
            arguments = call[3].split(") = ")[0]
            touched = pattern.findall(arguments)
            if touched:
                paths.update(path.rstrip("/") for path in touched)
                paths.update(touched)
                counts.setdefault(call[2], Counter())[call[1]] += 1
    os.unlink(log)
    return Calls({name: max(of.values()) for name, of in counts.items()}, sorted(paths), ended)


def at_call(calls, call, at, what):
    """The words in front of a run by which strace does something at the call of that name and number on the store."""
    paths = [word for path in calls.paths for word in ("-P", path.rstrip("/"))]
    return ["strace", "-f", "-q", "-o", "/dev/null", *paths, "-e", f"trace={call}", "-e", f"inject={call}:{what}:when={at}"]

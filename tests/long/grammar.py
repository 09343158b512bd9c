"""The grammars of a command's words and of scripts, written from docs/MANUAL.md alone."""

import re
from collections import namedtuple

JOB = {
    "chunk": ("fixed", "ae"),
    "size": (1, 65_536),
    "window": (1, 65_535),
    "max": (2, 65_536),
    "rewrite": ("none", "cap", "har", "both"),
    "segment": (1, 67_108_864),
    "cap": (1, 4_096),
    "threshold": (0, 100),
    "limit": (0, 100),
    "container": (1, 4_194_304),
}
DEFAULTS = {"chunk": "ae", "size": 4_096, "window": 4_096, "max": 65_536, "container": 4_194_304, "set": 0}
SET = {"set": (0, 255)}
VERSION = (0, 4_294_967_295)
STREAM = {"queue": (1, 1_024), "lanes": (1, 8)}
WORKERS = {"workers": (1, 8)}

# required and optional settings
COMMANDS = {
    "backup": ({}, {**JOB, **SET, **STREAM}),
    "restore": ({"version": VERSION}, {**SET, "cache": (1, 64)}),
    "delete": ({"through": VERSION}, SET),
    "show": ({"version": VERSION}, SET),
    "batch": ({}, {**STREAM, **WORKERS}),
    "fill": ({"seed": (0, 2**64 - 1), "versions": (1, 64)}, {**STREAM, **WORKERS}),
    "migrate": ({}, {}),
    "scrub": ({}, WORKERS),
}
# read, and refused as they are not built
RESERVED_SETTINGS = ["sample", "prefetch", "area"]

SCRIPT_BYTES = 1_048_576

Command = namedtuple("Command", "name settings")
Line = namedtuple("Line", "command set number name settings")


def number(value):
    """The number that a value is; None where it is none."""
    return int(value) if re.fullmatch(rb"0|[1-9][0-9]*", value) else None


def setting(allowed, value):
    """What a value stands for, where it is allowed; else None."""
    if not re.fullmatch(rb"[a-z0-9]{1,20}", value):
        return None
    if isinstance(allowed[0], str):
        word = value.decode()
        return word if word in allowed else None
    found = number(value)
    return found if found is not None and allowed[0] <= found <= allowed[1] else None


def taken(pairs, allowed):
    """The settings of these names and values; None where one is unknown, twice there or out of its range."""
    found = {}
    for name, value in pairs:
        name = name.decode(errors="replace")
        if name not in allowed or name in found:
            return None
        read = setting(allowed[name], value)
        if read is None:
            return None
        found[name] = read
    return found


def agree(settings):
    """Whether a job's settings agree with one another."""
    got = {**DEFAULTS, **settings}
    if got["chunk"] == "fixed":
        return got["container"] >= got["size"]
    return got["max"] > got["window"] and got["container"] >= got["max"]


def command_of(words):
    """The command that the words behind the folder are; None where they are outside the grammar."""
    if not words:
        return None
    name = words[0].decode(errors="replace")
    if name not in COMMANDS:
        return None
    required, optional = COMMANDS[name]
    pairs, rest = [], list(words[1:])
    while rest:
        word = rest.pop(0)
        if not word.startswith(b"--"):
            return None
        key, equals, value = word[2:].partition(b"=")
        if not equals:
            if not rest:
                return None
            value = rest.pop(0)
        pairs.append((key, value))
    settings = taken(pairs, {**required, **optional})
    if settings is None or not set(required) <= set(settings):
        return None
    if name == "backup" and not agree(settings):
        return None
    return Command(name, settings)


NAME = re.compile(rb"[A-Za-z0-9_][A-Za-z0-9._-]{0,63}")


def line_of(text):
    """A line of a script; None where it is bad by itself."""
    words = text.split(b" ")
    command = words.pop(0)
    at = name = None
    if command in (b"restore", b"delete"):
        at = setting(VERSION, words.pop(0)) if words else None
        if at is None:
            return None
    if command in (b"backup", b"restore"):
        name = words.pop(0) if words else b""
        if not NAME.fullmatch(name):
            return None
    allowed = {b"backup": {**JOB, **SET}, b"restore": {**SET, "cache": (1, 64)}, b"delete": SET}.get(command)
    if allowed is None:
        return None
    pairs = [word.partition(b"=") for word in words]
    if not all(equals for _, equals, _ in pairs):
        return None
    settings = taken([(key, value) for key, _, value in pairs], allowed)
    if settings is None or (command == b"backup" and not agree(settings)):
        return None
    return Line(command.decode(), settings.get("set", 0), at, name.decode() if name else None, settings)


def lines_of(script):
    """The lines of a script; or the text of the fault that refuses it."""
    if len(script) > SCRIPT_BYTES:
        return "error 12: script too long"
    texts = script.split(b"\n")
    if texts[-1] == b"":
        texts.pop()
    lines, read, written = [], set(), set()
    for at, text in enumerate(texts, 1):
        line = line_of(text)
        if line is not None and line.command == "restore":
            line = None if line.name in written | read else line
            written.add(line.name if line else None)
        elif line is not None and line.command == "backup":
            line = None if line.name in written else line
            read.add(line.name if line else None)
        if line is None:
            return f"error 12: bad script, line {at}"
        lines.append(line)
    return lines

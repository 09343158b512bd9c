"""A run of a program whose first thread is stopped at one call on a store, where something is done to it that strace does
not offer: half of a read or a write, or a loss of power. By ptrace, on 64-bit x86 alone."""

import ctypes
import os
import platform
import signal

import common

TRACEME, GETREGS, SETREGS, SYSCALL, SETOPTIONS = 0, 12, 13, 24, 0x4200
SYSGOOD, EXITKILL = 1, 0x100000
RAX, RDX, RSI, RDI, ORIG_RAX = 10, 12, 13, 14, 15
# what the first register has in front of a call
NOT_YET = 2**64 - 38
ALL_THREADS = 0x40000000

READ, WRITE = 0, 1
BY_FILE = {READ, WRITE, 3, 74, 77}
BY_PATH = {82: RDI, 83: RDI, 87: RDI, 257: RSI}

LIBC = ctypes.CDLL(None, use_errno=True)
LIBC.ptrace.argtypes = [ctypes.c_long, ctypes.c_long, ctypes.c_void_p, ctypes.c_void_p]
LIBC.ptrace.restype = ctypes.c_long
Registers = ctypes.c_ulong * 27


def needed():
    if platform.machine() != "x86_64" or platform.system() != "Linux":
        raise common.Skipped("calls are stopped by ptrace on 64-bit x86 alone")


def ptrace(request, pid, data=None):
    if LIBC.ptrace(request, pid, None, data) < 0:
        error = ctypes.get_errno()
        raise OSError(error, os.strerror(error))


def started(words, folder, files):
    """The program's process, in front of its first instruction."""
    pid = os.fork()
    if pid:
        return pid
    try:
        os.chdir(folder)
        for i, file in enumerate(files):
            os.dup2(file.fileno(), i)
        LIBC.ptrace(TRACEME, 0, None, None)
        os.execv(words[0], words)
    finally:
        os._exit(127)


def text_at(pid, address):
    try:
        with open(f"/proc/{pid}/mem", "rb", buffering=0) as memory:
            memory.seek(address)
            return memory.read(min(1024, 4096 - address % 4096)).split(b"\0")[0].decode(errors="replace")
    except OSError:
        return ""


def path_of(pid, registers):
    """The path that a call is about, where it is one of those that we know."""
    number = registers[ORIG_RAX]
    if number in BY_FILE:
        try:
            return os.readlink(f"/proc/{pid}/fd/{registers[RDI]}")
        except OSError:
            return ""
    if number in BY_PATH:
        return text_at(pid, registers[BY_PATH[number]])
    return ""


def half(pid, registers):
    """The call does half of what it was asked for."""
    if registers[RDX] > 1:
        registers[RDX] //= 2
        ptrace(SETREGS, pid, ctypes.byref(registers))


def run(words, folder, given, store, numbers, at, action):
    """Runs the words. In front of the call of that place, among those on the store that have one of the numbers, stands the
    action. How the run ended, and how many such calls came."""
    paths = [os.path.join(folder, f"traced_{name}") for name in ("in", "out", "err")]
    with open(paths[0], "wb") as file:
        file.write(given)
    with open(paths[0], "rb") as into, open(paths[1], "wb") as out, open(paths[2], "wb") as err:
        pid = started(words, folder, [into, out, err])
        _, status = os.waitpid(pid, ALL_THREADS)
        ptrace(SETOPTIONS, pid, ctypes.c_void_p(SYSGOOD | EXITKILL))
        count, passed_on = 0, 0
        registers = Registers()
        while os.WIFSTOPPED(status):
            ptrace(SYSCALL, pid, ctypes.c_void_p(passed_on))
            _, status = os.waitpid(pid, ALL_THREADS)
            if not os.WIFSTOPPED(status):
                break
            stopped_by = os.WSTOPSIG(status)
            passed_on = 0 if stopped_by & 0x7F == signal.SIGTRAP else stopped_by
            if stopped_by != signal.SIGTRAP | 0x80:
                continue
            ptrace(GETREGS, pid, ctypes.byref(registers))
            if registers[RAX] != NOT_YET or registers[ORIG_RAX] not in numbers:
                continue
            if path_of(pid, registers).startswith(store):
                count += 1
                if count == at:
                    action(pid, registers)
    found = []
    for path in paths[1:]:
        with open(path, "rb") as file:
            found.append(file.read())
    for path in paths:
        os.unlink(path)
    code = os.WEXITSTATUS(status) if os.WIFEXITED(status) else -os.WTERMSIG(status)
    return common.Ended(code, *found), count

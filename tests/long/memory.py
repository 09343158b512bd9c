"""Each allocation of a run fails once: each line is done, or refused for want of memory and then leaves the versions as they
were, and the next run does what it says. The same of a backup in threads over a store in memory, by a test. In threads
another run may ask in another order, so a number stands for one of the allocations that come about there."""

import os
import shutil
import struct
import subprocess

import common
from scenarios import Maker, Work, after, lines_of, status_of

REFUSED = "error 8: out of memory"
TESTS = "crates/pipe_backup_tests/out/pipe_backup_tests_tests"
TEST = "backups::a_backup_that_memory_failed_is_none"


def library(case):
    """The library that refuses an allocation."""
    if not shutil.which("gcc"):
        raise common.Skipped("there is no gcc")
    source = os.path.join(os.path.dirname(os.path.realpath(__file__)), "failing.c")
    built = os.path.join(case.room, "failing.so")
    subprocess.run(["gcc", "-O1", "-shared", "-fPIC", "-o", built, source], check=True)
    return built


def states_behind(work, what, ended):
    """The states that may be there behind the lines of this report, which are checked one by one."""
    case, scenario = work.case, work.scenario
    report = lines_of(ended)
    if not report:
        case.holds(f"{what}: a refusal by name", ended.err.decode() == REFUSED + "\n" and ended.status == 8, ended)
        return scenario.states[:1]
    if not scenario.lines:
        case.holds(f"{what}: the report", report == [REFUSED] or report[0].startswith("migrate: "), report)
        return scenario.states[:1]
    refused = [line for line in report if line.startswith("error ")]
    case.same(f"{what}: the status", ended.status, status_of(refused[0]) if refused else 0)
    case.same(f"{what}: how many lines there are", len(report), len(scenario.lines))
    kept = scenario.states[0]
    for line, told in zip(scenario.lines, report):
        behind, text = after(kept, line, scenario.files)
        if told.startswith(text):
            kept = behind
        else:
            case.same(f"{what}: a line that is not done", told, REFUSED)
    return [kept]


def outputs(work, what, ended):
    """Each restore that is done has written its bytes, and each other one a front of them."""
    state = work.scenario.states[0]
    for line, told in zip(work.scenario.lines, lines_of(ended)):
        behind, text = after(state, line, work.scenario.files)
        if line.command == "restore":
            wanted = state.get((line.set, line.number), b"")
            found = work.output(line.name)
            if told.startswith("restore "):
                work.case.same(f"{what}: the bytes of {line.name}", found, wanted)
            else:
                work.case.holds(f"{what}: a front of {line.name}", wanted.startswith(found or b""), common.short(found))
        elif told.startswith(text):
            state = behind


class Failing:
    """Runs in which an allocation is refused, and how many each asked for."""

    def __init__(self, case, built):
        self.built = built
        self.count = os.path.join(case.room, "count")

    def words(self, number):
        """The words in front of a run whose allocation of that number is refused."""
        with open(self.count, "wb") as file:
            file.write(bytes(8))
        return ["env", f"LD_PRELOAD={self.built}", f"FAIL_ALLOCATION={number}", f"COUNT_ALLOCATIONS={self.count}"]

    def asked(self):
        """How many the last run asked for."""
        with open(self.count, "rb") as file:
            asked = struct.unpack("<Q", file.read())[0]
        if asked == 0:
            raise common.Skipped("the program may not be given another library")
        return asked


def failures_of(case, program, scenario, failing):
    work = Work(case, program, scenario)
    tried = through = 0
    while True:
        number = tried + 1
        what = f"{scenario.name} where allocation {number} fails"
        ended = work.run(failing.words(number))
        asked = failing.asked()
        states = states_behind(work, what, ended)
        outputs(work, what, ended)
        state = work.stands(what, states)
        if asked < number:
            case.same(f"{what}: none failed", REFUSED in ended.out.decode() + ended.err.decode(), False)
            break
        tried += 1
        if REFUSED not in ended.out.decode() + ended.err.decode():
            through += 1
        if state is not None and number % 8 == 0:
            work.mends(what, state)
    case.say(f"{program.rsplit('/', 1)[1]}, {scenario.name}: {tried} allocations failed, of which {through} runs went through")
    return tried


def failures_of_the_test(case, failing):
    """The test says itself what is wrong; where memory fails what is around the backups, it ends with an error."""
    top = os.path.dirname(os.path.dirname(os.path.dirname(os.path.realpath(__file__))))
    program = os.path.join(top, TESTS)
    if not os.access(program, os.X_OK):
        case.say(f"skipped: no program {TESTS}")
        return 0
    tried = through = around = 0
    while True:
        number = tried + 1
        ended = common.run([*failing.words(number), program, TEST], case.room)
        told = (ended.out + ended.err).decode(errors="replace")
        is_around = ended.status == 101 and told.lstrip().startswith("error:")
        case.holds(f"the test where allocation {number} fails", ended.status == 0 or is_around, told)
        if failing.asked() < number:
            case.same("the test where no allocation fails", ended.status, 0)
            break
        tried += 1
        through += not is_around
        around += is_around
    case.say(f"{TEST}: {tried} allocations failed, {through} in the backups, {around} around them")
    return tried


def check(case):
    failing = Failing(case, library(case))
    runs = failures_of_the_test(case, failing)
    for program in case.programs:
        for scenario in Maker(case, program, 0.2).all():
            runs += failures_of(case, program, scenario, failing)
    case.say(f"{runs} runs in which an allocation failed")

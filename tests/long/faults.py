"""Each system call by which the program touches the store fails once: with an error of the disk, a full disk, an interrupted
call; reads and writes that do nothing, or half. The run is refused by name or goes through, nothing that was acknowledged
is lost, the store stands as before or behind each line that was refused, and the next run mends. Last come reads and writes
that lie, which say that they did more than they did: behind these a version may be refused by name as damaged, and never
comes back with other bytes."""

import os

import common
import traced
from scenarios import FAILED, KINDS, Maker, Work, after, lines_of, possible, status_of

ERRORS = ["EIO", "ENOSPC", "EINTR"]
NUMBERS = {"read": traced.READ, "write": traced.WRITE}
DAMAGED = "error 7: store damaged, "


def states_behind(work, what, ended):
    """The states that may be there behind the lines of this report, which are checked one by one."""
    case, scenario = work.case, work.scenario
    report = lines_of(ended)
    if not report:
        case.holds(f"{what}: a refusal by name", ended.err.decode() == FAILED + "\n" and ended.status == 6, ended)
        return scenario.states[:1] + (scenario.states[-1:] if len(scenario.lines) == 1 else [])
    refused = [line for line in report if line.startswith("error ")]
    case.same(f"{what}: the status", ended.status, status_of(refused[0]) if refused else 0)
    if not scenario.lines:
        case.holds(f"{what}: the report", report == [FAILED] or report[0].startswith("migrate: "), report)
        return scenario.states
    case.same(f"{what}: how many lines there are", len(report), len(scenario.lines))
    states, wrong = possible(scenario.states[0], scenario.lines, scenario.files, report)
    case.same(f"{what}: lines that are none of this script", wrong, [])
    return states


def outputs(work, what, ended):
    """Each restore that is done has written its bytes, and each other one a front of them."""
    state = work.scenario.states[0]
    for line, told in zip(work.scenario.lines, lines_of(ended)):
        behind, text = after(state, line, work.scenario.files)
        if line.command == "restore":
            wanted = state.get((line.set, line.number), b"")
            found = work.output(line.name)
            if told.startswith("restore "):
                work.case.same(f"{what}: the bytes of {line.name}", found, wanted)
            else:
                work.case.holds(f"{what}: a front of {line.name}", wanted.startswith(found or b""), common.short(found))
        elif told.startswith(text):
            state = behind


def look(work, what, ended):
    """All that is checked behind a run in which one call failed. Whether it went through."""
    states = states_behind(work, what, ended)
    outputs(work, what, ended)
    state = work.stands(what, states)
    if state is not None:
        work.mends(what, state)
    return FAILED not in lines_of(ended) and ended.status != 6


def lied_to(work, what, ended, writes):
    """Behind a run to which a call lied: each version comes back as some state has it, or is refused by name; and where
    the lie was a read, nothing is lost."""
    case = work.case
    report = lines_of(ended) + ended.err.decode(errors="replace").split("\n")[:-1]
    named = all(status_of(line) in (0, 3, 6, 7, 10) for line in report) and ended.status in (0, 3, 6, 7, 10)
    case.holds(f"{what}: named lines", report and named, ended)
    known = {}
    for state in work.scenario.states:
        for name, data in state.items():
            known.setdefault(name, set()).add(data)
    found = common.versions_by(work.program, work.store, work.names(), work.folder)
    for name, told in found.items():
        right = told is None or told in known.get(name, ()) or (isinstance(told, str) and told.startswith(DAMAGED))
        case.holds(f"{what}: version {common.label(name)}", right, told)
    if not writes:
        state = work.scenario.states[0]
        lost = [name for name in set.intersection(*map(set, work.scenario.states)) if found[name] != state[name]]
        case.same(f"{what}: lost versions", lost, [])


SHARES = 4


def faults_of(case, program, kind, share):
    """Every so many-th call of a scenario fails, in each way. How many calls there are; failures, runs that went through,
    short calls and lies."""
    scenario = getattr(Maker(case, program, 0.4), kind)()
    work = Work(case, program, scenario)
    work.lay()
    calls = common.calls_on(work.store, work.words(), work.folder, scenario.given)
    tried = through = short = lies = 0
    every = [(call, at) for call, count in sorted(calls.counts.items()) for at in range(1, count + 1)]
    for call, at in every[share::SHARES]:
        for way in [f"error={error}" for error in ERRORS] + (["retval=0"] if call == "write" else []):
            what = f"{scenario.name} where {call} {at} has {way}"
            ended = work.run(common.at_call(calls, call, at, way))
            through += look(work, what, ended)
            tried += 1
        if call in NUMBERS:
            what = f"{scenario.name} where {call} {at} does half"
            work.lay()
            ended, _ = traced.run(work.words(), work.folder, scenario.given, work.store, {NUMBERS[call]}, at, traced.half)
            case.holds(f"{what}: goes through", look(work, what, ended), ended)
            short += 1
            for value in (1, 20):
                what = f"{scenario.name} where {call} {at} says {value} and does nothing"
                ended = work.run(common.at_call(calls, call, at, f"retval={value}"))
                lied_to(work, what, ended, call == "write")
                lies += 1
    return scenario.name, len(every), tried, through, short, lies


def check(case):
    common.needs_strace()
    traced.needed()
    parts = [(f"{os.path.basename(program)} {kind}", program, kind, share)
             for program in case.programs for kind in KINDS for share in range(SHARES)]
    found = case.each([
        (name, lambda part, program=program, kind=kind, share=share: faults_of(part, program, kind, share))
        for name, program, kind, share in parts])
    runs = 0
    for at in range(0, len(parts), SHARES):
        shares = [one for one in found[at:at + SHARES] if one]
        tried, through, short, lies = (sum(one[i] for one in shares) for i in range(2, 6))
        runs += tried + short + lies
        case.say(f"{parts[at][0].split()[0]}, {shares[0][0]}: {shares[0][1]} calls on the store, {tried} failures, "
                 f"of which {through} runs went through; {short} short calls; {lies} lies")
    case.say(f"{runs} runs in which a call failed, was short or lied")

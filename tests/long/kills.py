"""The program is killed at each system call by which it touches the store: at the first `openat` on it, at the second, and
so on, for each call that it makes. Behind each kill the store stands as before or behind the line that was cut off, never
before one whose report was printed; each version restores byte by byte, by the program and by our own reader; and the next
run mends what was left. Recipes of a migration are in the old form or in the new one, byte by byte."""

import os
from collections import Counter

import common
from scenarios import KINDS, Maker, Work

KILLED = -9


def migrating(work, what, old):
    for name, data in common.blobs_in(work.store).items():
        if name[0] == "recipe":
            work.case.holds(f"{what}: recipe {name[1]}", data in (old[name], work.scenario.clean[name]))


SHARES = 4


def kills_of(case, program, kind, share):
    """Every so many-th kill of a scenario. How many calls there are, how many kills there were, how many calls were not
    reached, and how often which state was left."""
    scenario = getattr(Maker(case, program), kind)()
    work = Work(case, program, scenario)
    work.lay()
    calls = common.calls_on(work.store, work.words(), work.folder, scenario.given)
    old = common.blobs_in(scenario.before) if not scenario.lines else {}
    kills = missed = 0
    kept = {}
    every = [(call, at) for call, count in sorted(calls.counts.items()) for at in range(1, count + 1)]
    for call, at in every[share::SHARES]:
        what = f"{scenario.name} killed at {call} {at}"
        ended = work.run(common.at_call(calls, call, at, "signal=KILL"))
        if ended.status != KILLED:
            missed += 1
            case.same(f"{what}: status of a run that goes through", ended.status, work.status())
            continue
        kills += 1
        done, right = work.told(ended)
        case.holds(f"{what}: the report", right, ended.out)
        state = work.stands(what, scenario.states[done:] if scenario.lines else scenario.states)
        work.wrote(what, done)
        if old:
            migrating(work, what, old)
        if state is not None:
            kept[scenario.states.index(state)] = kept.get(scenario.states.index(state), 0) + 1
            work.mends(what, state)
    return scenario.name, len(every), kills, missed, kept


def check(case):
    common.needs_strace()
    parts = [(f"{os.path.basename(program)} {kind}", program, kind, share)
             for program in case.programs for kind in KINDS for share in range(SHARES)]
    found = case.each([
        (name, lambda part, program=program, kind=kind, share=share: kills_of(part, program, kind, share))
        for name, program, kind, share in parts])
    kills = 0
    for at in range(0, len(parts), SHARES):
        shares = [one for one in found[at:at + SHARES] if one]
        kept = Counter()
        for one in shares:
            kept.update({int(index): count for index, count in one[4].items()})
        killed = sum(one[2] for one in shares)
        kills += killed
        states = ", ".join(f"{count} left state {index}" for index, count in sorted(kept.items()))
        case.say(f"{parts[at][0].split()[0]}, {shares[0][0]}: {shares[0][1]} calls on the store, {killed} kills, "
                 f"{sum(one[3] for one in shares)} calls not reached; {states}")
    case.say(f"{kills} kills")
    case.holds("a thousand kills", kills >= 1000, kills)

"""Each byte of each blob of a small store is changed, to three other values; each blob is cut at each length, goes, and gets
a byte more. Behind each the program restores every version exactly, or refuses it by the name of a damaged blob, and has
written a front of the version's bytes and nothing else; where our own reader finds the damage at the opening, the name is
the one that it finds. A backup beside the damage leaves every version that comes back as it was."""

import os

import blobs
import common
from scenarios import Maker


def small_store(case, program):
    """Versions of two sets, in small containers, of which one is deleted: a recipe of format 1, one of no bytes, floors."""
    folder = case.folder("small")
    kept = {}
    first = case.stream(90)
    streams = [(0, b"x"), (0, first), (3, first[:40] + case.stream(30)), (0, first[20:] + case.stream(25)), (3, b"")]
    for set_, data in streams:
        words = [program, "store", "backup", "--chunk", "fixed", "--size", "10", "--container", "30", "--set", str(set_)]
        ended = common.run(words, folder, data)
        if ended.status != 0:
            raise RuntimeError(f"{ended}")
        kept[set_, max((v for s, v in kept if s == set_), default=0) + 1] = data
    common.run([program, "store", "delete", "--through", "1"], folder)
    del kept[0, 1]
    store = os.path.join(folder, "store")
    files = blobs.files_of(store)
    files[("recipe", 2)] = blobs.in_first_format(files)[("recipe", 2)]
    return files, kept


def changes(case, files):
    """Each damaged form of each blob; None where it is gone."""
    for name, data in sorted(files.items()):
        for at, byte in enumerate(data):
            for other in sorted({byte ^ 0xFF, byte ^ 1, case.random.randrange(256)} - {byte}):
                yield name, f"byte {at} to {other}", data[:at] + bytes([other]) + data[at + 1:]
        for length in range(len(data)):
            yield name, f"cut to {length}", data[:length]
        yield name, "one byte more", data + b"\0"
        yield name, "gone", None


def written(store, name, data):
    path = os.path.join(store, blobs.file_of(*name))
    if data is None:
        os.unlink(path)
    else:
        with open(path, "wb") as file:
            file.write(data)


def opening(files):
    """The line by which an opening is refused, if it is; and else the state."""
    try:
        return None, blobs.opened(files)
    except blobs.Damage as damage:
        return damage.line(), None


def restored(case, what, program, folder, kept, files):
    """Each version is exact or refused by name. How many were refused."""
    line, state = opening(files)
    refused = 0
    for name, data in sorted(kept.items()):
        wanted = line
        if state is not None:
            try:
                whole = state.whole(*name)
                case.holds(f"{what}: our reader", whole == data)
            except blobs.Damage as damage:
                wanted = damage.line()
            except KeyError:
                wanted = "error 3: version not kept"
        words = [program, "store", "restore", "--version", str(name[1]), "--set", str(name[0])]
        ended = common.run(words, folder)
        told = ended.err.decode(errors="replace")
        if wanted is None:
            case.holds(f"{what}: version {common.label(name)}", ended.status == 0 and ended.out == data, ended)
        else:
            refused += 1
            case.same(f"{what}: the line for {common.label(name)}", (told, ended.status), (wanted + "\n", int(wanted[6])))
            case.holds(f"{what}: a front of {common.label(name)}", data.startswith(ended.out), ended)
    return refused


SHARES = 4


def damage_by(case, program, share):
    """Every so many-th damaged form. How many blobs and bytes there are; forms, restores and refusals."""
    files, kept = small_store(case, program)
    folder = case.folder("damaged")
    store = os.path.join(folder, "store")
    blobs.write_files(files, store)
    case.same("refused versions of the store that is whole", restored(case, "whole", program, folder, kept, files), 0)
    forms = refusals = 0
    for name, change, data in list(changes(case, files))[share::SHARES]:
        written(store, name, data)
        now = {**files, name: data}
        if data is None:
            del now[name]
        forms += 1
        refusals += restored(case, f"{name}, {change}", program, folder, kept, now)
        written(store, name, files[name])
    size = sum(map(len, files.values()))
    case.same("the store behind it", blobs.files_of(store), files)
    return len(files), size, forms, forms * len(kept), refusals


def beside(case, program):
    """Payloads are not read by a backup, so it goes on beside a damaged one, and takes nothing else with it."""
    scenario = Maker(case, program, 0.4).backup()
    files = blobs.files_of(scenario.before)
    for name in sorted(name for name in files if name[0] == "payload"):
        folder = case.folder("beside")
        store = os.path.join(folder, "store")
        data = files[name]
        at = case.random.randrange(len(data))
        now = {**files, name: data[:at] + bytes([data[at] ^ 255]) + data[at + 1:]}
        blobs.write_files(now, store)
        ended = common.run([program, "store", *scenario.words], folder, scenario.given)
        case.holds(f"a backup beside a damaged {name}", ended.out.startswith(scenario.texts[0].encode()), ended)
        state = blobs.opened(blobs.files_of(store))
        told = common.versions_by(program, store, scenario.states[-1], folder)
        for version, wanted in scenario.states[-1].items():
            needs = name[1] in {row.id for row in state.recipes[version].rows}
            right = told[version] == f"error 7: store damaged, payload {name[1]}" if needs else told[version] == wanted
            case.holds(f"version {common.label(version)} beside a damaged {name}", right, told[version])


def check(case):
    parts = [(os.path.basename(program), program, share) for program in case.programs for share in range(SHARES)]
    found = case.each([(name, lambda part, program=program, share=share: damage_by(part, program, share))
                       for name, program, share in parts])
    for at in range(0, len(parts), SHARES):
        shares = [one for one in found[at:at + SHARES] if one]
        forms, restores, refusals = (sum(one[i] for one in shares) for i in range(2, 5))
        case.say(f"{parts[at][0]}: {shares[0][0]} blobs of {shares[0][1]} bytes, {forms} damaged stores, {restores} restores, "
                 f"{refusals} refused by name, {restores - refusals} exact")
    for program in case.programs:
        beside(case, program)

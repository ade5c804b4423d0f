#!/usr/bin/env python3
"""Calls on the control of a run, with the answers and the events that the definitions give.

Usage: control_walk.py SEED STEPS     a walk of so many random calls by five backends
       control_walk.py FILE           the calls of each block of a file, for a test of master

Everything is computed from the list of events alone, apart from the program. A block begins with a line that names the
run, as in the tests of master:

    pages 20 20 9000 + entries 9 1 150 on 3 3 8 then 4 gives 2

Two scans, each of its own statement: positions, pages and time; backends, drives and batch of the machine; its backends
after the first finish; how many answers there are at the end. `trio` in place of the scans names 12 pages, 9 entries, and
one position that reads what the pages give; `none` names no fragment. The calls follow, one a line. What is printed is
each block with the answers behind the calls, and then the events.
"""

import random
import re
import sys

from random_walk import ROLES, Scan, is_held, is_idle, out

BATCH = 4
DRIVES = 4
BACKENDS = 6
STEPS = [(1, 3)]
# positions, whether they are pages, what is read, D and T
TRIO = [(12, True, [], 12, 96), (9, False, [], 1, 150), (1, True, [0], 0, 30)]
FRAGMENTS = TRIO
TRIO_LINE = "trio on 6 4 4 then 3 gives 2"
KINDS = ["next", "next", "next", "claim", "claim", "claim", "settle", "settle", "settle", "leave", "finish", "uncollect"]


def backends_after(history):
    count = sum(event[0] == "finish" for event in history)
    found = [backends for after, backends in STEPS if after <= count]
    return found[-1] if found else BACKENDS


def given(decision, fragment):
    return dict(decision).get(fragment)


def begun(history, fragment):
    """The degree at which a fragment began, or None."""
    for event in history:
        if event[0] in ("begin", "finish") and given(event[-1], fragment) is not None:
            return given(event[-1], fragment)
    return None


def is_finished(history, fragment):
    return any(event[0] == "finish" and event[1] == fragment for event in history)


def runs(history, fragment):
    return begun(history, fragment) is not None and not is_finished(history, fragment)


def moves(history, fragment):
    """The history of one fragment alone, as that of a scan."""
    found = []
    for place, event in enumerate(history):
        name = event[0]
        if name == "finish" and event[1] != fragment and runs(history[:place], fragment):
            degree = given(event[2], fragment)
            if degree is not None:
                found.append(("ask", degree))
        elif name in ("seat", "collect") and event[2] == fragment:
            found.append((name,) + event[3:])
        elif name in ("claim", "settle", "divide", "leave", "uncollect") and event[1] == fragment:
            found.append((name,) + event[2:])
    return found


def is_collecting(history, fragment):
    collecting = False
    for event in history:
        if event[0] == "collect" and event[2] == fragment:
            collecting = True
        elif event[0] in ("uncollect", "finish") and event[1] == fragment:
            collecting = False
    return collecting


def scan_of(history, fragment):
    positions, by_pages = FRAGMENTS[fragment][:2]
    return Scan(positions, begun(history, fragment) or 1, by_pages)


def is_full(history, fragment):
    return scan_of(history, fragment).is_full(moves(history, fragment))


def wanted(history, fragment):
    scan = scan_of(history, fragment)
    mine = moves(history, fragment)
    pending = scan.pending(mine)
    return scan.degree(mine) if pending is None else pending


def is_bound_by_drives(backends, load):
    return 16 * load[1] * backends > DRIVES * load[2]


def solo(backends, load):
    if not is_bound_by_drives(backends, load):
        return backends
    return max(1, min(backends, DRIVES * load[2] // (16 * load[1])))


def paired(backends, disk, cpu):
    def gap(x):
        used = 16 * (disk[1] * x * cpu[2] + cpu[1] * (backends - x) * disk[2])
        return abs(used - DRIVES * disk[2] * cpu[2])

    x = min(range(1, backends), key=gap)
    return sorted([(disk[0], x), (cpu[0], backends - x)])


def ratio_key(most):
    """The greatest ratio of pages to time, or the least; of equal ones that of the lowest number."""
    return lambda load: ((-load[1] if most else load[1]) / load[2], load[0])


def decision(history):
    backends = backends_after(history)
    loads = [(f,) + fragment[3:] for f, fragment in enumerate(FRAGMENTS)]
    running = [load for load in loads if runs(history, load[0])]
    ready = [
        load
        for load in loads
        if begun(history, load[0]) is None and all(is_finished(history, g) for g in FRAGMENTS[load[0]][2])
    ]
    disk = [load for load in ready if is_bound_by_drives(backends, load)]
    cpu = [load for load in ready if not is_bound_by_drives(backends, load)]
    if not running:
        if disk and cpu and backends >= 2:
            return paired(backends, min(disk, key=ratio_key(True)), min(cpu, key=ratio_key(False)))
        return [(ready[0][0], solo(backends, ready[0]))] if ready else []
    one = running[0]
    by_drives = is_bound_by_drives(backends, one)
    others = cpu if by_drives else disk
    if not others or backends < 2:
        return [(one[0], solo(backends, one))]
    other = min(others, key=ratio_key(not by_drives))
    return paired(backends, one, other) if by_drives else paired(backends, other, one)


def text_of(parts):
    return " ".join(f"{f}:{n}" for f, n in parts) if parts else "nothing"


def divide_due(history):
    for f in range(len(FRAGMENTS)):
        scan, mine = scan_of(history, f), moves(history, f)
        pending = scan.pending(mine)
        if pending is not None and is_idle(mine):
            history.append(("divide", f, pending, scan.cut(mine)))
            return history[-1][3]
    return None


def next_job(history, choice):
    backend = choice.randrange(5)
    numbers = range(len(FRAGMENTS))
    for f in numbers:
        if runs(history, f) and is_full(history, f) and not is_collecting(history, f):
            history.append(("collect", backend, f))
            return f"next {backend} = collect {f}"
    for f in numbers:
        if runs(history, f):
            mine = moves(history, f)
            role = scan_of(history, f).free_role(mine)
            held = sum(is_held(mine, r) for r in ROLES)
            if role is not None and held < wanted(history, f):
                history.append(("seat", backend, f, role))
                return f"next {backend} = job {f} {role}"
    done = all(is_finished(history, f) for f in numbers)
    return f"next {backend} = {'stop' if done else 'rest'}"


def pick(history, choice, busy):
    """A held role that has a batch out, or that has none."""
    found = []
    for f in range(len(FRAGMENTS)):
        mine = moves(history, f)
        found += [(f, r) for r in ROLES if is_held(mine, r) and bool(out(mine, r)) == busy]
    return choice.choice(found) if found else None


def claim(history, choice):
    one = pick(history, choice, False)
    if one is None:
        return None
    f, role = one
    scan, mine = scan_of(history, f), moves(history, f)
    if scan.pending(mine) is not None:
        return f"claim {f} {role} = hold"
    places = scan.left(mine, role)[:BATCH]
    if not places:
        return f"claim {f} {role} = leave"
    history.append(("claim", f, role, places))
    return f"claim {f} {role} = {places}"


def settle(history, choice):
    one = pick(history, choice, True)
    if one is None:
        return None
    f, role = one
    most = len(out(moves(history, f), role))
    count = choice.choice([most, most, choice.randint(0, most)])
    history.append(("settle", f, role, count))
    if is_full(history, f):
        return f"settle {f} {role} {count} = finished"
    cut = divide_due(history)
    return f"settle {f} {role} {count} = " + ("more" if cut is None else f"cut {cut}")


def leave(history, choice):
    one = pick(history, choice, False)
    if one is None or choice.random() < 0.4:
        return None
    history.append(("leave",) + one)
    return f"leave {one[0]} {one[1]} = left"


def collected(history):
    return [f for f in range(len(FRAGMENTS)) if is_collecting(history, f)]


def finish(history, choice):
    found = collected(history)
    if not found:
        return None
    f = choice.choice(found)
    chosen = decision(history + [("finish", f, [])])
    history.append(("finish", f, chosen))
    divide_due(history)
    return f"finish {f} = {text_of(chosen)}"


def uncollect(history, choice):
    found = collected(history)
    if not found or choice.random() < 0.6:
        return None
    f = choice.choice(found)
    history.append(("uncollect", f))
    return f"uncollect {f} = undone"


CALLS = {"next": next_job, "claim": claim, "settle": settle, "leave": leave, "finish": finish, "uncollect": uncollect}


def walk(seed, steps):
    choice = random.Random(seed)
    history = []
    history.append(("begin", decision(history)))
    lines = []
    while len(lines) < steps:
        line = CALLS[choice.choice(KINDS)](history, choice)
        if line is not None:
            lines.append(line)
    return lines, history


def event_text(event):
    name = event[0]
    if name in ("begin", "finish"):
        return " ".join([name] + [str(f) for f in event[1:-1]]) + " then " + text_of(event[-1])
    return " ".join([name] + [str(part) for part in event[1:]])


def claimed(history, f, role):
    scan, mine = scan_of(history, f), moves(history, f)
    assert is_held(mine, role) and not out(mine, role)
    if scan.pending(mine) is not None:
        return "hold"
    places = scan.left(mine, role)[:BATCH]
    if not places:
        return "leave"
    history.append(("claim", f, role, places))
    return str(places)


def settled(history, f, role, count):
    assert count <= len(out(moves(history, f), role)) > 0
    history.append(("settle", f, role, count))
    if is_full(history, f):
        return "finished"
    cut = divide_due(history)
    return "more" if cut is None else f"cut {cut}"


def finished(history, f):
    assert is_collecting(history, f)
    chosen = decision(history + [("finish", f, [])])
    history.append(("finish", f, chosen))
    divide_due(history)
    return text_of(chosen)


def left(history, f, role):
    mine = moves(history, f)
    assert is_held(mine, role) and not out(mine, role)
    history.append(("leave", f, role))
    divide_due(history)
    return "left"


def undone(history, f):
    assert is_collecting(history, f)
    history.append(("uncollect", f))
    return "undone"


def released(history):
    for f in range(len(FRAGMENTS)):
        for role in ROLES:
            if out(moves(history, f), role):
                settled(history, f, role, 0)
            if is_held(moves(history, f), role):
                left(history, f, role)
        if is_collecting(history, f):
            undone(history, f)
    return "released"


class Backend:
    """Stands for a choice: the one backend of a call."""

    def __init__(self, number):
        self.number = number

    def randrange(self, _most):
        return self.number


def answer(history, call):
    name, *rest = call.split()
    numbers = [int(word) for word in rest]
    if name == "next":
        return next_job(history, Backend(numbers[0])).split(" = ")[1]
    calls = {"claim": claimed, "settle": settled, "finish": finished, "leave": left, "uncollect": undone, "release": released}
    return calls[name](history, *numbers)


def name_run(line):
    """Sets the run that the first line of a block names."""
    global BATCH, DRIVES, BACKENDS, STEPS, FRAGMENTS
    words = line.split()
    place = words.index("on")
    BACKENDS, DRIVES, BATCH = (int(word) for word in words[place + 1 : place + 4])
    STEPS = [(1, int(words[words.index("then") + 1]))]
    scans = re.findall(r"(pages|entries) (\d+) (\d+) (\d+)", line)
    FRAGMENTS = [(int(n), kind == "pages", [], int(d), int(t)) for kind, n, d, t in scans]
    if words[0] == "trio":
        FRAGMENTS = TRIO


def play(block):
    first, *calls = block.strip().split("\n")
    name_run(first)
    history = []
    history.append(("begin", decision(history)))
    lines = [f"{call} = {answer(history, call)}" for call in calls]
    return "\n".join([first] + lines + [event_text(event) for event in history])


def main():
    if len(sys.argv) == 2:
        with open(sys.argv[1], encoding="utf-8") as file:
            blocks = file.read().strip().split("\n\n")
        print("\n\n".join(play(block) for block in blocks))
        return
    lines, history = walk(int(sys.argv[1]), int(sys.argv[2]))
    print("\n".join([TRIO_LINE] + lines + [event_text(event) for event in history]))


if __name__ == "__main__":
    main()

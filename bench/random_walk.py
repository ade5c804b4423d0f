#!/usr/bin/env python3
"""A walk of random calls over the board of a scan, with the answers that the definitions give.

Usage: random_walk.py SEED POSITIONS DEGREE pages|entries STEPS

Everything is computed from the list of events alone, apart from the program. Two such walks stand in the tests of
adjust_protocol.
"""

import random
import sys

ROLES = range(64)
KINDS = ["seat", "seat", "claim", "claim", "claim", "settle", "settle", "settle", "ask", "leave"]


def last_claim(history, role):
    """The places of the role's last claim."""
    for event in reversed(history):
        if event[0] == "claim" and event[1] == role:
            return event[2]
    return []


def deposited(history):
    """The positions that were deposited, settle by settle."""
    found = []
    for place, event in enumerate(history):
        if event[0] == "settle":
            found += last_claim(history[:place], event[1])[: event[2]]
    return found


def out(history, role):
    """The batch that the role has out."""
    for event in reversed(history):
        if event[0] in ("claim", "settle") and event[1] == role:
            return event[2] if event[0] == "claim" else []
    return []


def is_held(history, role):
    for event in reversed(history):
        if event[0] in ("seat", "leave") and event[1] == role:
            return event[0] == "seat"
    return False


def is_idle(history):
    return all(not out(history, role) for role in ROLES)


class Scan:
    """What a scan is told at its start: its positions, its degree, and whether it is divided by pages."""

    def __init__(self, positions, start, by_pages):
        self.positions = positions
        self.start = start
        self.by_pages = by_pages

    def degree(self, history):
        divides = [event[1] for event in history if event[0] == "divide"]
        return divides[-1] if divides else self.start

    def is_full(self, history):
        return len(deposited(history)) == self.positions

    def pending(self, history):
        """The pending degree, or None."""
        pending = None
        for place, event in enumerate(history):
            before = history[:place]
            if event[0] == "ask":
                wanted = self.degree(before) if pending is None else pending
                if not self.is_full(before) and event[1] != wanted:
                    pending = event[1]
            elif event[0] == "divide":
                pending = None
            elif event[0] == "settle" and self.is_full(history[: place + 1]):
                pending = None
        return pending

    def cut(self, history):
        done = deposited(history)
        if self.by_pages:
            return max(done) + 1 if done else 0
        return self.positions - len(set(done))

    def page_owners(self, history):
        pairs = [(0, self.start)]
        for place, event in enumerate(history):
            if event[0] == "divide":
                cut = self.cut(history[:place])
                pairs = [pair for pair in pairs if pair[0] < cut] + [(cut, event[1])]
        return {page: page % [pair for pair in pairs if pair[0] <= page][-1][1] for page in range(self.positions)}

    def entry_owners(self, history):
        divides = [place for place, event in enumerate(history) if event[0] == "divide"]
        done = deposited(history[: divides[-1]]) if divides else []
        degree = history[divides[-1]][1] if divides else self.start
        open_positions = [position for position in range(self.positions) if position not in done]
        count = len(open_positions)
        owners = {}
        for role in range(degree):
            for place in range(role * count // degree, (role + 1) * count // degree):
                owners[open_positions[place]] = role
        return owners

    def left(self, history, role):
        """The positions that the role owns and that are neither deposited nor out, ascending."""
        owners = self.page_owners(history) if self.by_pages else self.entry_owners(history)
        gone = set(deposited(history))
        for other in ROLES:
            gone |= set(out(history, other))
        return [position for position in range(self.positions) if owners.get(position) == role and position not in gone]

    def free_role(self, history):
        """The least role that can be seated, or None."""
        pending = self.pending(history)
        for role in ROLES:
            wanted = pending is not None and role < pending
            if not is_held(history, role) and (self.left(history, role) or wanted):
                return role
        return None


def seat(scan, history, _choice, holders, wanted):
    if len(holders) >= wanted:
        return None
    role = scan.free_role(history)
    if role is None:
        return "seat = no role"
    history.append(("seat", role))
    return f"seat = role {role}"


def claim(scan, history, choice, holders, _wanted):
    idle = [role for role in holders if not out(history, role)]
    if not idle:
        return None
    role = choice.choice(idle)
    most = choice.randint(1, 5)
    if scan.pending(history) is not None:
        return f"claim {role} {most} = hold"
    places = scan.left(history, role)[:most]
    if not places:
        return f"claim {role} {most} = leave"
    history.append(("claim", role, places))
    return f"claim {role} {most} = {places}"


def settle(scan, history, choice, _holders, _wanted):
    busy = [role for role in ROLES if out(history, role)]
    if not busy:
        return None
    role = choice.choice(busy)
    count = choice.randint(0, len(out(history, role)))
    pending = scan.pending(history)
    history.append(("settle", role, count))
    if scan.is_full(history):
        return f"settle {role} {count} = finished"
    if pending is not None and is_idle(history):
        cut = scan.cut(history)
        history.append(("divide", pending, cut))
        return f"settle {role} {count} = cut {cut}"
    return f"settle {role} {count} = more"


def ask(scan, history, choice, _holders, wanted):
    degree = choice.randint(1, 5)
    is_full = scan.is_full(history)
    history.append(("ask", degree))
    if is_full:
        return f"ask {degree} = already finished"
    if degree == wanted:
        return f"ask {degree} = no change"
    if is_idle(history):
        cut = scan.cut(history)
        history.append(("divide", degree, cut))
        return f"ask {degree} = cut {cut}"
    return f"ask {degree} = pending"


def leave(_scan, history, choice, holders, _wanted):
    idle = [role for role in holders if not out(history, role)]
    if not idle or choice.random() < 0.5:
        return None
    role = choice.choice(idle)
    history.append(("leave", role))
    return f"leave {role} = left"


CALLS = {"seat": seat, "claim": claim, "settle": settle, "ask": ask, "leave": leave}


def walk(scan, seed, steps):
    choice = random.Random(seed)
    history = []
    lines = []
    while len(lines) < steps:
        pending = scan.pending(history)
        wanted = scan.degree(history) if pending is None else pending
        holders = [role for role in ROLES if is_held(history, role)]
        line = CALLS[choice.choice(KINDS)](scan, history, choice, holders, wanted)
        if line is not None:
            lines.append(line)
    assert len(deposited(history)) == len(set(deposited(history)))
    return lines


def main():
    seed, positions, start, by, steps = sys.argv[1:]
    scan = Scan(int(positions), int(start), by == "pages")
    print("\n".join(walk(scan, int(seed), int(steps))))


if __name__ == "__main__":
    main()

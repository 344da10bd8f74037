#!/usr/bin/env python3
"""What the program random_feeders has to print.

    python3 tests/reference/random_feeders.py > crates/random_feeders/stdout

The whole check runs the proved program and compares what it prints with that file. Nothing here comes from that program's
output or from its drawing: the feeders are grown by the same generator, and what has to be drawn of them is worked out by
other means, from the known feeder where there is one.

- The reduced feeder of a known feeder: unmetered buses with no metered bus below them are dropped, those with exactly one
  line down are taken out and the two resistances added, and the ones that are left are numbered by the rule.
- The complete feeder of a known feeder all of whose buses are metered: the feeder itself if every end has an inverter. Else
  there is none, since an end without an inverter has the same response to every inverter as the bus where its way joins
  those of the inverters, or as the substation.
- Where a response was changed, no feeder is known. A table has a reduced feeder exactly if it is symmetric, no response is
  above the distance of either bus, no bus is at the substation, no two are at one spot, and of any three responses between
  three buses the two smallest are equal. The feeder is then found by splitting the buses into those that share more than the
  distance reached so far, again and again. The same is done for each known feeder, as a test of this script.

Resistances, distances and responses are whole millionths.
"""

SUBSTATION = 0


class Random:
    """A linear congruential generator."""

    def __init__(self):
        self.state = 20251

    def below(self, bound):
        self.state = self.state * 48271 % 2147483647
        return self.state % bound

    def flip(self):
        return self.below(2) == 1


# Feeders. A feeder is a list of pairs (parent, resistance), that of bus 1 first.

SHAPES = ("chain", "star", "anywhere", "deep", "forks", "forks", "ends", "ends")


class Plan:
    def __init__(self, metered, unmetered, shape, unmetered_first, random):
        self.metered = metered
        self.buses = metered + unmetered
        self.shape = shape
        self.unmetered_first = unmetered_first
        longest = 1_000_000 // self.buses
        self.least, self.most = (
            (1, 1),
            (1, 3),
            (1, 1_000),
            (1, longest),
            (longest, longest),
        )[random.below(5)]

    @staticmethod
    def small(random):
        metered = 1 + random.below(12)
        unmetered = random.below(metered + 4)
        return Plan.sized(metered, unmetered, random)

    @staticmethod
    def large(random):
        metered = 20 + random.below(45)
        unmetered = random.below(64)
        return Plan.sized(metered, unmetered, random)

    @staticmethod
    def sized(metered, unmetered, random):
        shape = SHAPES[random.below(8)]
        unmetered_first = random.below(4) != 0
        return Plan(metered, unmetered, shape, unmetered_first, random)

    @staticmethod
    def full(random):
        return Plan(64, 63, "forks", True, random)

    def joint(self, there, random):
        """Which of the buses that are there the next one joins, from 1; 0 for the substation."""
        if self.shape == "chain":
            return there
        if self.shape == "star":
            return min(there, 1)
        if self.shape == "anywhere":
            return random.below(there + 1)
        if self.shape == "deep":
            return max(there - random.below(3), 0)
        if self.shape == "forks":
            return (there + 1) // 2
        return random.below(min(there, self.buses - self.metered) + 1)


def mix(items, random):
    for i in range(len(items)):
        j = i + random.below(len(items) - i)
        items[i], items[j] = items[j], items[i]
    return items


def grow(plan, random):
    metered = list(range(1, plan.metered + 1))
    unmetered = list(range(plan.metered + 1, plan.buses + 1))
    if plan.unmetered_first:
        mix(unmetered, random)
        order = unmetered + mix(metered, random)
    else:
        order = mix(metered + unmetered, random)
    lines = [None] * plan.buses
    for there, bus in enumerate(order):
        joint = plan.joint(there, random)
        parent = SUBSTATION if joint == 0 else order[joint - 1]
        resistance = plan.least + random.below(plan.most - plan.least + 1)
        lines[bus - 1] = (parent, resistance)
    assert max(distance(lines, bus) for bus in order) <= 1_000_000
    return lines


def way(lines, bus):
    """The bus, its parent and so on, without the substation."""
    buses = []
    while bus != SUBSTATION:
        buses.append(bus)
        bus = lines[bus - 1][0]
    return buses


def distance(lines, bus):
    return sum(lines[b - 1][1] for b in way(lines, bus))


def responses(lines, metered):
    """The resistances that lie on both ways, for each two metered buses."""
    ways = [set(way(lines, bus)) for bus in range(1, metered + 1)]
    return [[sum(lines[b - 1][1] for b in n & m) for m in ways] for n in ways]


# The reduced feeder of a known feeder.


def numbered(metered, parents, resistances):
    """The feeder of these lines with its unmetered buses numbered by the rule: first by the lowest inverter at or below the
    bus, then by the smaller distance. An unmetered bus may have any name here."""
    lowest = {}
    distances = {}
    for bus in range(1, metered + 1):
        above = bus
        passed = []
        while above != SUBSTATION:
            lowest[above] = min(lowest.get(above, bus), bus)
            passed.append(above)
            above = parents[above]
        reached = 0
        for above in reversed(passed):
            reached += resistances[above]
            distances[above] = reached
    is_metered = set(range(1, metered + 1))
    unmetered = [bus for bus in parents if bus not in is_metered]
    unmetered.sort(key=lambda bus: (lowest[bus], distances[bus]))
    numbers = {SUBSTATION: SUBSTATION}
    for bus in range(1, metered + 1):
        numbers[bus] = bus
    for place, bus in enumerate(unmetered):
        numbers[bus] = metered + 1 + place
    feeder = [None] * len(parents)
    for bus in parents:
        feeder[numbers[bus] - 1] = (numbers[parents[bus]], resistances[bus])
    return feeder


def contracted(lines, metered):
    wanted = set()
    for bus in range(1, metered + 1):
        wanted.update(way(lines, bus))
    parents = {bus: lines[bus - 1][0] for bus in wanted}
    resistances = {bus: lines[bus - 1][1] for bus in wanted}
    for bus in sorted(wanted):
        below = [b for b in parents if parents[b] == bus]
        if bus > metered and len(below) == 1:
            parents[below[0]] = parents.pop(bus)
            resistances[below[0]] += resistances.pop(bus)
    return numbered(metered, parents, resistances)


# The reduced feeder of a table.


def has_feeder(table):
    buses = range(len(table))
    for n in buses:
        if table[n][n] <= 0:
            return False
        for m in buses:
            if table[n][m] != table[m][n] or table[n][m] < 0:
                return False
            if table[n][m] > min(table[n][n], table[m][m]):
                return False
            if n != m and table[n][m] == table[n][n] == table[m][m]:
                return False
            if any(table[n][m] < min(table[n][k], table[k][m]) for k in buses):
                return False
    return True


def split(table):
    parents = {}
    resistances = {}

    def hang(buses, parent, reached):
        left = list(buses)
        while left:
            together = [n for n in left if table[left[0]][n] > reached]
            left = [n for n in left if n not in together]
            nearest = min(table[n][m] for n in together for m in together)
            there = [n for n in together if table[n][n] == nearest]
            name = there[0] + 1 if there else ("unmetered", together[0], nearest)
            parents[name] = parent
            resistances[name] = nearest - reached
            hang([n for n in together if n not in there], name, nearest)

    hang(range(len(table)), SUBSTATION, 0)
    return numbered(len(table), parents, resistances)


# What the program does, and what it has to print.


def change(table, random):
    """One response made larger or smaller, or it and the mirrored one."""
    bus = random.below(len(table))
    inverter = bus if random.flip() else random.below(len(table))
    both = random.flip()
    size = 1 + random.below(3)
    up = random.flip()
    places = {(bus, inverter), (inverter, bus)} if both else {(bus, inverter)}
    for n, m in places:
        if table[n][m] < size or (up and table[n][m] + size <= 1_000_000):
            table[n][m] += size
        else:
            table[n][m] -= size


def pass_file(metered, random):
    """The numbers that go into the response file: its first record's inverter, and each record's step."""
    random.below(metered)
    for _ in range(metered):
        random.below(1_000)
        random.flip()


def inverters(lines, random):
    bare = 1 + random.below(len(lines)) if random.below(8) == 0 else 0
    chosen = set()
    parents = {parent for parent, _ in lines}
    for bus in range(1, len(lines) + 1):
        if (random.flip() or bus not in parents) and bus != bare:
            chosen.add(bus)
    return chosen


def show(number, word, metered, feeder):
    if feeder is None:
        print(f"feeder {number}, {word}: refusal 18, place 0")
        return
    lines = ", ".join(f"{i + 1}<{parent} {r}" for i, (parent, r) in enumerate(feeder))
    print(f"feeder {number}, {word}: {metered} metered, {len(feeder)} buses: {lines}")


def show_feeder(number, plan, random):
    lines = grow(plan, random)
    pass_file(plan.metered, random)
    reduced = contracted(lines, plan.metered)
    table = responses(lines, plan.metered)
    assert has_feeder(table) and split(table) == reduced
    assert responses(reduced, plan.metered) == table
    show(number, "reduced", plan.metered, reduced)
    if plan.buses <= 64:
        chosen = inverters(lines, random)
        for _ in lines:
            random.below(2_000_000_001)
        parents = {parent for parent, _ in lines}
        ends = [bus for bus in range(1, plan.buses + 1) if bus not in parents]
        feeder = lines if chosen.issuperset(ends) else None
        show(number, "complete", plan.buses, feeder)


def show_changed(number, plan, random):
    lines = grow(plan, random)
    table = responses(lines, plan.metered)
    change(table, random)
    pass_file(plan.metered, random)
    feeder = split(table) if has_feeder(table) else None
    show(number, "changed", plan.metered, feeder)


def main():
    random = Random()
    for number in range(1, 201):
        show_feeder(number, Plan.small(random), random)
    for number in range(201, 281):
        show_changed(number, Plan.small(random), random)
    for number in range(281, 293):
        show_feeder(number, Plan.large(random), random)
    show_feeder(293, Plan.full(random), random)


main()

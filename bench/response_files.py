"""Response files of random feeders, for the benchmark and for comparing programs. Bus numbers start at 1, the substation is 0.
Resistances and responses are whole millionths, steps whole thousandths, voltage changes whole billionths."""


def grow(random, buses, most):
    """A feeder: the parent and the resistance of each bus, that of bus 1 first. Any tree, with its buses numbered at random."""
    order = list(range(1, buses + 1))
    random.shuffle(order)
    reach = random.choice((1, 3, buses))
    lines = [None] * buses
    for there, bus in enumerate(order):
        above = [0] + order[:there]
        lines[bus - 1] = (random.choice(above[-reach:]), random.randint(1, most))
    return lines


def way(lines, bus):
    buses = []
    while bus != 0:
        buses.append(bus)
        bus = lines[bus - 1][0]
    return buses


def responses(lines, metered):
    """A row for each metered bus n, with its response to an inverter at each metered bus m at place m - 1."""
    ways = [set(way(lines, bus)) for bus in range(1, metered + 1)]
    return [[sum(lines[b - 1][1] for b in n & m) for m in ways] for n in ways]


def ends(lines):
    parents = {parent for parent, _ in lines}
    return [bus for bus in range(1, len(lines) + 1) if bus not in parents]


def decimal(value, decimals):
    """A whole number of units, written with all its decimals."""
    sign = "-" if value < 0 else ""
    size = str(abs(value)).zfill(decimals + 1)
    return f"{sign}{size[:-decimals]}.{size[-decimals:]}"


def records(table, inverters, step):
    """The fields of the file as text: the header, then a record for each inverter, whose step the function `step` tells."""
    metered = len(table)
    fields = [["probe", "step"] + [str(bus) for bus in range(1, metered + 1)]]
    for m in inverters:
        size = step(m)
        changes = [decimal(table[n][m - 1] * size, 9) for n in range(metered)]
        fields.append([str(m), decimal(size, 3)] + changes)
    return fields


def text(fields):
    return "".join(",".join(record) + "\r\n" for record in fields).encode("ascii")

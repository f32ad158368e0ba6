"""A judge of sessions and reports that shares no code with dsnroute, for examples/check_boards.

It reads a session and a report by the format's description and judges them by plain lists: each two items are
compared, islands are gathered item by item, and each move out of a cut's nodes is tried. All numbers are whole, so its
answers are exact. It is slow.
"""
import re
from fractions import Fraction

from plain_design import FAR, NM, Design, Refused, coordinate, decimal, extent, first_of, is_inside, keeps, lower
from plain_design import read_tree, rounded, to_point, touches

MOST_NODES = 2 ** 24

# ---------------------------------------------------------------- sessions


def read_session(text, d):
    """The net and the metal of each wire and via, in order. The first refusal is that of the least place."""
    tree = read_tree(text)
    bad = []
    if tree.head() != "session":
        bad.append(tree.at)
    routes = tree.lists("routes")
    if not routes:
        raise Refused(min(bad + [tree.at]))
    routes = routes[0]
    resolution, network = routes.lists("resolution"), routes.lists("network_out")
    unit = read_resolution(resolution, routes, bad)
    found = []
    if not network:
        bad.append(routes.at)
    for net in network[0].lists("net") if network else []:
        words = net.words()
        name = words[0] if words else ""
        number = d.numbers.get(name)
        if number is None:
            bad.append(words[0].at if words else net.at)
        for part in net.lists("wire", "via"):
            metal = read_wire(part, unit, d, bad) if part.head() == "wire" else read_via(part, unit, d, bad)
            found.append((number, metal))
    if bad:
        raise Refused(min(bad))
    return found


def read_resolution(resolution, routes, bad):
    if not resolution:
        bad.append(routes.at)
        return Fraction(1000)
    words = resolution[0].words()
    name = lower(words[0]) if words else ""
    if name not in NM:
        bad.append(words[0].at if words else resolution[0].at)
        name = "um"
    per = decimal(words[1]) if len(words) > 1 else None
    if per is None or per.denominator != 1 or not 1 <= per <= 1000000:
        bad.append(words[1].at if len(words) > 1 else resolution[0].at)
        per = 1
    return Fraction(NM[name]) / per


def read_wire(part, unit, d, bad):
    paths = part.lists("path")
    if len(paths) != 1:
        bad.append(part.at)
        return None
    words = paths[0].words()
    layer = words[0] if words else ""
    if layer not in d.layers:
        bad.append(words[0].at if words else paths[0].at)
    rest = words[1:]
    if len(rest) < 5 or len(rest) % 2 == 0:
        bad.append(paths[0].at)
        return None
    width = extent(rest[0], unit)
    points = [coordinate(word, unit) for word in rest[1:]]
    bad += [word.at for word, value in zip(rest, [width] + points) if value is None]
    if layer not in d.layers:
        return None
    return "wire", d.layers.index(layer), width, tuple(zip(points[::2], points[1::2]))


def read_via(part, unit, d, bad):
    words = part.words()
    name = words[0] if words else ""
    if name not in d.padstacks:
        bad.append(words[0].at if words else part.at)
    at = []
    for k in (1, 2):
        value = coordinate(words[k], unit) if len(words) > k else None
        if value is None:
            bad.append(words[k].at if len(words) > k else part.at)
        at.append(value)
    if name in d.padstacks and None not in at:
        for p in d.padstacks[name]:
            if any(abs(q[k] + at[k]) > FAR for s in p.segments for q in s for k in (0, 1)):
                bad.append(part.at)
    return "via", name, tuple(at)


def is_equal(a, b):
    if a[0] == "wire" and b[0] == "wire":
        return a[1:3] == b[1:3] and a[3] in (b[3], b[3][::-1])
    return a == b


# ---------------------------------------------------------------- boards


class Copper:
    """The design's fixed items, and what is left of a session behind them."""

    def __init__(self, d, session):
        left = list(session)
        for item in d.fixed:
            if item.metal and item.metal[0] in ("wire", "via"):
                for k, (net, metal) in enumerate(left):
                    if net == item.net and is_equal(item.metal, metal):
                        del left[k]
                        break
        self.d = d
        self.items = d.fixed + [d.item(net, metal) for net, metal in left]
        self.kept, self.cells = {}, {}
        for k, item in enumerate(self.items):
            for p in item.pieces:
                for cell in self.cells_of(p, 0):
                    self.cells.setdefault(cell, set()).add(k)
        values = [v for rules in [d.own] + [r for net in d.nets for r in (net.own, net.group)]
                  for _, v in rules["clearances"]]
        self.reach = max(values + [1]) + max(p.width for item in self.items for p in item.pieces)

    SIDE = 2000000

    def cells_of(self, p, more):
        x0, y0, x1, y1 = p.box
        for x in range((x0 - more) // self.SIDE, (x1 + more) // self.SIDE + 1):
            for y in range((y0 - more) // self.SIDE, (y1 + more) // self.SIDE + 1):
                yield x, y

    def near(self, item):
        return sorted({k for p in item.pieces for cell in self.cells_of(p, self.reach + p.width)
                       for k in self.cells.get(cell, ())})

    def agree(self, a, b):
        for ban, other in ((a, b), (b, a)):
            if ban.kind == "area" and other.kind not in ban.bans:
                return True
        d = self.d
        if a.net is None or a.net != b.net:
            room = 2 * d.clearance(a, b)
            return all(p.layer != q.layer or keeps(p, q, max(1, room + p.width + q.width))
                       for p in a.pieces for q in b.pieces)
        if {a.kind, b.kind} == {"via", "smd"} and not d.at_smd:
            return not any(touches(p, q) for p in a.pieces for q in b.pieces)
        return True

    def is_within(self, item):
        return all(is_inside(first_of(p.spine), loops) for loops, _ in self.d.bounds for p in item.pieces)

    def is_laid(self, item):
        if item.kind == "wire":
            return not self.d.power[item.metal[1]] and item.metal[2] >= self.d.nets[item.net].width
        return item.metal[1] in self.d.nets[item.net].vias

    def wrong(self):
        """The number and the least id of what is wrong with the copper."""
        own = [k for k, item in enumerate(self.items) if not item.fixed]
        bad = [min(k, j) for k in own for j in self.near(self.items[k])
               if j != k and not self.agree(self.items[k], self.items[j])]
        if bad:
            return 3, min(bad)
        for number, holds in ((4, self.is_within), (5, self.is_laid)):
            bad = [k for k in own if not holds(self.items[k])]
            if bad:
                return number, min(bad)
        return None

    def islands(self, net):
        """The pins of each island of a net in the net's order, and its items."""
        own = [k for k, item in enumerate(self.items) if item.net == net]
        pad = {self.items[k].metal[1]: k for k in own if self.items[k].metal[0] == "pad"}
        found, seen = [], set()
        for pin in self.d.nets[net].pins:
            if pad[pin] in seen:
                continue
            group, todo = {pad[pin]}, [pad[pin]]
            while todo:
                a = self.items[todo.pop()]
                for k in own:
                    if k not in group and any(touches(p, q) for p in a.pieces for q in self.items[k].pieces):
                        group.add(k)
                        todo.append(k)
            seen |= group
            found.append(([p for p in self.d.nets[net].pins if pad[p] in group], sorted(group)))
        return found

    def is_legal(self, item):
        return self.is_within(item) and all(self.agree(item, self.items[k]) for k in self.near(item))


def multiples(grid, unit, low, high):
    """The multiples of a grid, each rounded down to the unit, that lie strictly between two numbers."""
    step = max(grid, unit)
    for n in range(low // step, high // step + 1):
        x = n * step // unit * unit
        if low < x < high:
            yield x


class Lattice:
    """The lines of a grid, and its nodes on each signal layer."""

    def __init__(self, d, grid):
        points = [p for loop in d.bounds[0][0] for p in loop]
        self.d = d
        self.lines = []
        for k in (0, 1):
            low, high = min(p[k] for p in points), max(p[k] for p in points)
            lines = {x for x in (self.anchor(pin[2])[k] for pin in d.pins if pin[1] is not None) if low < x < high}
            lines.update(multiples(grid, d.scale, low, high))
            self.lines.append(sorted(lines))
        self.xs, self.ys = self.lines
        self.levels = [k for k in range(len(d.layers)) if not d.power[k]]
        self.count = len(self.levels) * len(self.xs) * len(self.ys)
        self.open, self.legal = {}, {}

    def anchor(self, p):
        unit = self.d.scale
        return tuple((x + unit // 2) // unit * unit if unit % 2 == 0 else rounded(Fraction(x, unit)) * unit for x in p)

    def at(self, node):
        rest, i = divmod(node, len(self.xs))
        level, j = divmod(rest, len(self.ys))
        return level, j, i

    def node(self, level, j, i):
        return (level * len(self.ys) + j) * len(self.xs) + i

    def point(self, node):
        _, j, i = self.at(node)
        return self.xs[i], self.ys[j]

    def ways(self, node, net):
        """Where each move of a net leads, and what it lays."""
        level, j, i = self.at(node)
        layer, p = self.levels[level], self.point(node)
        width = self.d.nets[net].width
        for di, dj in ((1, 0), (-1, 0), (0, 1), (0, -1)):
            if 0 <= i + di < len(self.xs) and 0 <= j + dj < len(self.ys):
                to = self.node(level, j + dj, i + di)
                yield to, ("wire", layer, width, (p, self.point(to)))
        for name in self.d.nets[net].vias:
            layers = {q.layer for q in self.d.padstacks[name]}
            for other, far in enumerate(self.levels):
                if far != layer and far in layers and layer in layers:
                    yield self.node(other, j, i), ("via", name, p)

    def anchors(self, copper, ids):
        """The nodes that anchor one of the items."""
        found = set()
        for k in ids:
            item = copper.items[k]
            for level, layer in enumerate(self.levels):
                pieces = [p for p in item.pieces if p.layer == layer]
                for p in pieces:
                    for i, j in self.nodes_in(p):
                        q = self.xs[i], self.ys[j]
                        if self.is_anchor(item, q) and any(piece.holds(q) for piece in pieces):
                            found.add(self.node(level, j, i))
        return found

    def nodes_in(self, p):
        x0, y0, x1, y1 = p.box
        half = p.width
        return [(i, j) for i, x in enumerate(self.xs) if x0 - half <= x <= x1 + half
                for j, y in enumerate(self.ys) if y0 - half <= y <= y1 + half]

    def is_anchor(self, item, q):
        if item.metal[0] == "wire":
            return any(to_point(q, *s)[0] == 0 for s in item.pieces[0].segments)
        if item.metal[0] == "via":
            return item.metal[2] == q
        return self.anchor(self.d.pins[item.metal[1]][2]) == q

    def is_open(self, copper, net, metal):
        key = net, metal
        if key not in self.open:
            self.open[key] = copper.is_legal(self.d.item(net, metal))
        return self.open[key]

    def is_start(self, copper, net, node):
        layer = self.levels[self.at(node)[0]]
        return self.is_open(copper, net, ("wire", layer, self.d.nets[net].width, (self.point(node),)))


# ---------------------------------------------------------------- reports

NUMBER = r"(0|[1-9][0-9]*)"
BARE = r"[A-Za-z0-9_.+/:\[\]~*]+"


def spelled(name):
    return name if re.fullmatch(BARE, name) else '"%s"' % name


class Misplaced(Exception):
    """The line of the report that isn't in its place."""

    def __init__(self, line):
        super().__init__(line)
        self.line = line


class Report:
    """What a report tells, read line by line; `wrong` is the line that isn't in its place."""

    def __init__(self, text, d, firsts):
        self.text, self.place, self.grid_line, self.wrong = text, 0, None, None
        self.nets = []
        try:
            self.read(d, firsts)
        except Misplaced as fault:
            self.wrong = fault.line

    def line(self, form):
        """The numbers of a line of this form, or None where another stands here."""
        found = re.compile(form + "\n").match(self.text, self.place)
        if found:
            self.place = found.end()
        return found

    def wanted(self, form):
        found = self.line(form)
        if not found:
            raise Misplaced(1 + self.text.count("\n", 0, self.place))
        return found

    def read(self, d, firsts):
        self.wanted("board " + re.escape(spelled(d.name)))
        self.wanted("layers %d nets %d pins %d" % (len(d.layers), len(d.nets), len(d.pins)))
        before = self.place
        line = 1 + self.text.count("\n", 0, before)
        grid = self.wanted("grid %s nodes %s" % (NUMBER, NUMBER))
        if not 1000 <= int(grid[1]) <= 409600000:
            self.place = before
            raise Misplaced(line)
        self.grid, self.nodes, self.grid_line = int(grid[1]), int(grid[2]), line
        drops = int(self.wanted("dropped " + NUMBER)[1])
        while drops and self.wanted("drop " + NUMBER):
            drops -= 1
        self.wanted("notes " + NUMBER)
        number = 1
        self.wanted("pass 1 commits %s open %s" % (NUMBER, NUMBER))
        while self.line("pass %d commits %s open %s" % (number + 1, NUMBER, NUMBER)):
            number += 1
        self.wanted("kept " + NUMBER)
        self.wanted("joins " + NUMBER)
        for net, own in zip(d.nets, firsts):
            self.nets.append(self.read_net(net.name, own))
        complete = sum(not cuts for cuts in self.nets)
        self.wanted("complete %d open %d" % (complete, len(self.nets) - complete))
        if self.place < len(self.text):
            raise Misplaced(1 + self.text.count("\n", 0, self.place))

    def read_net(self, name, firsts):
        head = "net " + re.escape(spelled(name))
        if self.line(head + " complete"):
            return []
        before = self.place
        count = int(self.wanted(head + " open " + NUMBER)[1])
        if count < 2:
            self.place = before
            raise Misplaced(1 + self.text.count("\n", 0, before))
        return [self.read_cut(firsts[k] if k < len(firsts) else None) for k in range(count)]

    def read_cut(self, first):
        if first is not None and '"' in first:
            name = "(%s)" % re.escape(spelled(first))
        else:
            name = '(%s|"(?!%s")[^"]*")' % (BARE, BARE)
        head = self.wanted("cut %s reached %s blocked %s" % (name, NUMBER, NUMBER))
        while self.line("by (?:wire|via|pin|smd|area) " + NUMBER):
            pass
        self.line("by outside")
        runs = []
        while True:
            run = self.line("run %s %s %s %s" % (NUMBER, NUMBER, NUMBER, NUMBER))
            if not run:
                break
            runs.append([int(run[k]) for k in (1, 2, 3, 4)])
        told = head[1] if re.fullmatch(BARE, head[1]) else head[1][1:-1]
        return told, int(head[2]), int(head[3]), runs


# ---------------------------------------------------------------- the answer


class Judge:
    """Answers sessions and reports of one design as `dsnroute check` should."""

    def __init__(self, design):
        self.d = Design(design)
        self.sessions, self.lattices = {}, {}

    def copper(self, session):
        """The copper of a session, what is wrong with it, and its islands; or the place where it is refused."""
        if session not in self.sessions:
            try:
                copper = Copper(self.d, read_session(session, self.d))
                found = copper, copper.wrong(), [copper.islands(net) for net in range(len(self.d.nets))], {}
            except Refused as fault:
                found = fault.at
            self.sessions = {session: found}
        return self.sessions[session]

    def lattice(self, grid):
        """The lattice of a grid; the last few stay."""
        if grid not in self.lattices:
            if len(self.lattices) > 3:
                self.lattices.clear()
            self.lattices[grid] = Lattice(self.d, grid)
        return self.lattices[grid]

    def answer(self, session, report):
        copper = self.copper(session)
        if isinstance(copper, int):
            return "check 1 at %d" % copper
        copper, wrong, islands, ground = copper
        firsts = [[self.d.pins[pins[0]][0] for pins, _ in own] for own in islands]
        told = Report(report, self.d, firsts)
        if told.grid_line is not None:
            count = self.lattice(told.grid).count
            if told.wrong is None and count > MOST_NODES:
                return "limit nodes %d" % count
            if count != told.nodes:
                return "check 2 at %d" % told.grid_line
        if told.wrong is not None:
            return "check 2 at %d" % told.wrong
        if wrong:
            return "check %d at %d" % wrong
        for net, (own, cuts) in enumerate(zip(islands, told.nets)):
            if len(cuts) != (len(own) if len(own) > 1 else 0):
                return "check 6 at %d" % net
        bad = [own[k][0][0] for net, own in enumerate(islands) if told.nets[net] for k in range(len(own))
               if not self.is_cut(copper, ground, told, net, own, k)]
        return "check 7 at %d" % min(bad) if bad else "check ok"

    def is_cut(self, copper, ground, told, net, own, k):
        name, reached, blocked, runs = told.nets[net][k]
        if name != self.d.pins[own[k][0][0]][0]:
            return False
        lat = self.lattice(told.grid)
        if ground.get("grid") != told.grid:
            ground.clear()
            ground["grid"] = told.grid
            lat.open = {}
        nodes = set()
        for level, j, first, last in runs:
            if not (level < len(lat.levels) and j < len(lat.ys) and first <= last < len(lat.xs)):
                return False
            nodes |= {lat.node(level, j, i) for i in range(first, last + 1)}
        key = net, k, frozenset(nodes)
        if key not in ground:
            ground[key] = self.leads_out(copper, lat, net, own, k, nodes)
        return ground[key] is not None and (reached, blocked) == (len(nodes), ground[key])

    def leads_out(self, copper, lat, net, own, k, nodes):
        """How many moves lead out of the nodes, all of them shut; None where they don't shut the island in."""
        for j, (_, ids) in enumerate(own):
            anchors = lat.anchors(copper, ids)
            if j != k and anchors & nodes:
                return None
            if j == k and any(node not in nodes and lat.is_start(copper, net, node) for node in anchors):
                return None
        count = 0
        for node in sorted(nodes):
            for to, metal in lat.ways(node, net):
                if to not in nodes:
                    count += 1
                    if lat.is_open(copper, net, metal):
                        return None
        return count

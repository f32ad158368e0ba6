"""A reader of designs that shares no code with dsnroute, for examples/plain_judge.py.

It reads what KiCad's exports and the generated designs hold: of a wire its path, of keepouts one form without
windows. It refuses no design. Lengths are whole nm.
"""
import re
from fractions import Fraction
from math import floor

NM = {"inch": 25400000, "mil": 25400, "cm": 10000000, "mm": 1000000, "um": 1000}
BLANKS = " \t\n\v\f\r"
FAR, WIDE = 2 ** 29, 2 ** 28


def lower(text):
    """The text with its ASCII letters small."""
    return "".join(chr(ord(c) + 32) if "A" <= c <= "Z" else c for c in text)


class Refused(Exception):
    """The place of the first thing that is wrong with a session."""

    def __init__(self, at):
        super().__init__(at)
        self.at = at


# ---------------------------------------------------------------- trees


class Word(str):
    """A word, with its place."""

    def __new__(cls, text, at):
        word = super().__new__(cls, text)
        word.at = at
        return word


class Group(list):
    """A bracketed list, with the place of its bracket."""

    def __init__(self, at):
        super().__init__()
        self.at = at

    def head(self):
        return lower(self[0]) if self and isinstance(self[0], Word) else None

    def words(self):
        return [part for part in self[1:] if isinstance(part, Word)]

    def lists(self, *heads):
        return [part for part in self if isinstance(part, Group) and part.head() in heads]


def read_word(text, at, quote):
    """The word that begins at a place, and where it ends."""
    parts, i = [], at
    while i < len(text) and text[i] not in BLANKS + "()":
        if text[i] == quote:
            end = text.find(quote, i + 1)
            if end < 0:
                raise Refused(i)
            parts.append(text[i + 1:end])
            i = end + 1
        else:
            parts.append(text[i])
            i += 1
    return Word("".join(parts), at), i


def tokens(text):
    """Brackets and words, one after another, with their places."""
    quote, i, fresh, behind = '"', 0, True, False
    while i < len(text):
        c = text[i]
        if c in BLANKS:
            fresh, i = fresh or c == "\n", i + 1
        elif c == "#" and fresh:
            end = text.find("\n", i)
            i = len(text) if end < 0 else end
        elif c in "()":
            fresh, behind, i = False, c == "(", i + 1
            yield c, i - 1
        else:
            fresh = False
            rule = behind and lower(text[i:i + 12]) == "string_quote" and text[i + 12:i + 13] in BLANKS + "()"
            word, i = (Word(text[i:i + 12], i), i + 12) if rule else read_word(text, i, quote)
            behind = False
            yield word, word.at
            if rule:
                while i < len(text) and text[i] in BLANKS:
                    i += 1
                if i < len(text):
                    if text[i] not in "\"'$":
                        raise Refused(i)
                    quote, i = text[i], i + 1
                    yield Word(quote, i - 1), i - 1


def read_tree(text):
    whole, within = None, []
    for token, at in tokens(text):
        if token == ")" and not isinstance(token, Word):
            if not within:
                raise Refused(at)
            within.pop()
        elif token == "(" and not isinstance(token, Word):
            if whole is not None and not within:
                raise Refused(at)
            if len(within) == 64:
                raise Refused(at)
            group = Group(at)
            if within:
                within[-1].append(group)
            else:
                whole = group
            within.append(group)
        elif not within:
            raise Refused(at)
        else:
            within[-1].append(token)
    if within:
        raise Refused(within[-1].at)
    if whole is None:
        raise Refused(0)
    return whole


# ---------------------------------------------------------------- numbers


def decimal(word):
    """The value of a decimal, or None."""
    form = re.fullmatch(r"([+-]?)(\d*)(\.?)(\d*)(?:[eE]([+-]?\d{1,2}))?", word)
    if not form or not 1 <= len(form[2] + form[4]) <= 18:
        return None
    value = Fraction(int(form[2] + form[4]), 10 ** len(form[4])) * Fraction(10) ** int(form[5] or 0)
    return -value if form[1] == "-" else value


def rounded(value):
    return floor(value + Fraction(1, 2))


def coordinate(word, unit):
    value = decimal(word)
    at = None if value is None else rounded(value * unit)
    return at if at is not None and abs(at) <= FAR else None


def extent(word, unit):
    value = decimal(word)
    size = None if value is None else -floor(-value * unit)
    return size if size is not None and 0 <= value and size <= WIDE else None


# ---------------------------------------------------------------- geometry


def segments_of(spine):
    """A spine is `False` and its points, or `True` and its loops."""
    is_area, parts = spine
    if not is_area:
        return list(zip(parts, parts[1:])) or [(parts[0], parts[0])]
    return [edge for loop in parts for edge in zip(loop, loop[1:] + loop[:1])]


def first_of(spine):
    return spine[1][0][0] if spine[0] else spine[1][0]


def is_inside(p, loops):
    """The ray to greater x crosses an odd number of edges, each taken without its upper end."""
    odd = False
    for loop in loops:
        for a, b in zip(loop, loop[1:] + loop[:1]):
            if (a[1] <= p[1]) != (b[1] <= p[1]):
                low, high = (a, b) if a[1] < b[1] else (b, a)
                side = (high[0] - low[0]) * (p[1] - low[1]) - (p[0] - low[0]) * (high[1] - low[1])
                odd ^= side > 0
    return odd


def to_point(p, a, b):
    """The squared distance of a point from a segment, as a fraction's two parts."""
    vx, vy, wx, wy = b[0] - a[0], b[1] - a[1], p[0] - a[0], p[1] - a[1]
    along, whole = vx * wx + vy * wy, vx * vx + vy * vy
    if along <= 0:
        return wx * wx + wy * wy, 1
    if along >= whole:
        return (p[0] - b[0]) ** 2 + (p[1] - b[1]) ** 2, 1
    return (vx * wy - vy * wx) ** 2, whole


def turn(a, b, c):
    return (b[0] - a[0]) * (c[1] - a[1]) - (b[1] - a[1]) * (c[0] - a[0])


def is_crossed(s, t):
    """The segments cross in one point that is no end of theirs."""
    (a, b), (c, d) = s, t
    return turn(a, b, c) * turn(a, b, d) < 0 and turn(c, d, a) * turn(c, d, b) < 0


def is_close(s, t, k):
    """Twice the distance of two segments is less than k."""
    (a, b), (c, d) = s, t
    ways = to_point(a, c, d), to_point(b, c, d), to_point(c, a, b), to_point(d, a, b)
    return any(4 * way < k * k * part for way, part in ways) or k > 0 and is_crossed(s, t)


def is_met(s, t, k):
    """It is at most k."""
    (a, b), (c, d) = s, t
    ways = to_point(a, c, d), to_point(b, c, d), to_point(c, a, b), to_point(d, a, b)
    return any(4 * way <= k * k * part for way, part in ways) or is_crossed(s, t)


def is_held(one, two):
    """The first vertex of one is inside the other."""
    return one[0] and is_inside(first_of(two), one[1]) or two[0] and is_inside(first_of(one), two[1])


def keeps(p, q, k):
    """Two pieces keep this, which is twice their distance with half their widths."""
    if p.is_off(q, k):
        return True
    if any(is_close(s, t, k) for s in p.segments for t in q.segments):
        return False
    return not is_held(p.spine, q.spine)


def touches(p, q):
    k = p.width + q.width
    if p.layer != q.layer or p.is_off(q, k + 1):
        return False
    return any(is_met(s, t, k) for s in p.segments for t in q.segments) or is_held(p.spine, q.spine)


class Piece:
    """A spine of some width on a layer."""

    def __init__(self, layer, spine, width):
        self.layer, self.spine, self.width = layer, spine, width
        self.segments = segments_of(spine)
        xs = [p[0] for s in self.segments for p in s]
        ys = [p[1] for s in self.segments for p in s]
        self.box = min(xs), min(ys), max(xs), max(ys)

    def is_off(self, other, k):
        a, b = self.box, other.box
        gap = max(a[0] - b[2], b[0] - a[2], a[1] - b[3], b[1] - a[3])
        return gap > 0 and 2 * gap >= k

    def moved(self, move, layer):
        is_area, parts = self.spine
        spine = (True, [[move(p) for p in loop] for loop in parts]) if is_area else (False, [move(p) for p in parts])
        return Piece(layer, spine, self.width)

    def holds(self, p):
        for a, b in self.segments:
            way, part = to_point(p, a, b)
            if 4 * way <= self.width ** 2 * part:
                return True
        return self.spine[0] and is_inside(p, self.spine[1])


class Item:
    """Copper of a net, or a ban: its kind is wire, via, pin, smd or area; `bans` are the kinds that an area bans. Its
    metal is `wire` with layer, width and points, `via` with padstack and point, or `pad` with the pin's number."""

    def __init__(self, kind, net, pieces, metal=None, bans=("wire", "via"), fixed=True):
        self.kind, self.net, self.pieces, self.metal, self.bans, self.fixed = kind, net, pieces, metal, bans, fixed


# ---------------------------------------------------------------- designs


class Net:
    def __init__(self, name):
        self.name, self.pins, self.own, self.group = name, [], [], []
        self.vias = []


def is_closed(points):
    return points[:-1] if len(points) > 1 and points[0] == points[-1] else points


def turned(p, micro):
    """The point turned by so many millionths of a degree."""
    quarters = (micro + 45000000) // 90000000
    rest = micro - 90000000 * quarters
    t = abs(rest) * 17453292520 // 1000000
    sums, one = [], 10 ** 12
    for start, shift in ((one, 1), (t, 2)):
        term, total = start, 0
        for k in range(8):
            total += -term if k % 2 else term
            term = term * t // one * t // one // ((2 * k + shift) * (2 * k + shift + 1))
        sums.append(total)
    cosine, sine = sums[0], sums[1] if rest >= 0 else -sums[1]
    x, y = p
    x, y = (x * cosine - y * sine + one // 2) // one, (x * sine + y * cosine + one // 2) // one
    for _ in range(quarters % 4):
        x, y = -y, x
    return x, y


class Design:
    """A design by its text."""

    def __init__(self, text):
        tree = read_tree(text)
        self.name = tree.words()[0]
        resolution = tree.lists("resolution")[0].words()
        self.per = int(decimal(resolution[1]))
        unit = tree.lists("unit")
        self.unit_name = resolution[0].lower()
        if unit:
            self.unit = NM[unit[0].words()[0].lower()]
        else:
            self.unit = Fraction(NM[self.unit_name], 1)
        self.read_structure(Group(0), tree)
        self.read_library(tree)
        self.read_network(tree)
        self.place(tree)
        self.lay(tree)
        self.scale = self.scale_nm()

    def point(self, words):
        return rounded(decimal(words[0]) * self.unit), rounded(decimal(words[1]) * self.unit)

    def points(self, words):
        return [self.point(words[i:i + 2]) for i in range(0, len(words), 2)]

    def size(self, word):
        return -floor(-decimal(word) * self.unit)

    def levels(self, word):
        if word in self.layers:
            return [self.layers.index(word)]
        power = {"pcb": (False, True), "signal": (False,), "power": (True,)}[word.lower()]
        return [k for k in range(len(self.layers)) if self.power[k] in power]

    def shape(self, group, as_loop=False):
        """The layers, the spine and the width of a form."""
        words = group.words()
        levels, rest = self.levels(words[0]), words[1:]
        if group.head() == "circle":
            centre = self.point(rest[1:3]) if len(rest) > 1 else (0, 0)
            return levels, (False, [centre]), self.size(rest[0])
        if group.head() == "rect":
            (a, b), (c, d) = self.points(rest)
            return levels, (True, [[(a, b), (c, b), (c, d), (a, d)]]), 0
        width, points = self.size(rest[0]), self.points(rest[1:])
        if group.head() == "polygon" or as_loop:
            return levels, (True, [is_closed(points)]), width
        return levels, (False, points), width

    def rules(self, group):
        """The width and the clearances, as lists of types and their value."""
        found = {"width": None, "clearances": []}
        for rule in group.lists("rule"):
            for part in rule.lists("width"):
                found["width"] = self.size(part.words()[0])
            for part in rule.lists("clearance"):
                kinds = [t.words()[0] for t in part.lists("type")]
                found["clearances"].append((kinds, self.size(part.words()[0])))
        return found

    def read_structure(self, structure, tree):
        for part in tree.lists("structure"):
            structure.extend(part)
        layers = structure.lists("layer")
        self.layers = [layer.words()[0] for layer in layers]
        self.power = [any(t.words()[0].lower() == "power" for t in layer.lists("type")) for layer in layers]
        self.bounds = []
        for bound in structure.lists("boundary"):
            shapes = [self.shape(part, True) for part in bound if isinstance(part, Group)]
            self.bounds.append(([shape[1][1][0] for shape in shapes], max(shape[2] for shape in shapes)))
        self.keepouts = self.bans_of(structure)
        self.via_names = [word for via in structure.lists("via") for word in via.words()]
        self.own = self.rules(structure)
        controls = [word for control in structure.lists("control") for part in control.lists("via_at_smd")
                    for word in part.words()]
        self.at_smd = bool(controls) and controls[-1].lower() == "on"
        flips = [word for group in (structure, *tree.lists("placement")) for control in group.lists("place_control")
                 for part in control.lists("flip_style") for word in part.words()]
        self.turns_first = bool(flips) and flips[-1].lower() == "rotate_first"

    def bans_of(self, group):
        kinds = {"keepout": ("wire", "via"), "via_keepout": ("via",), "wire_keepout": ("wire",)}
        found = []
        for ban in group.lists(*kinds):
            forms = [part for part in ban if isinstance(part, Group)]
            levels, spine, width = self.shape(forms[0])
            found.append((kinds[ban.head()], [Piece(level, spine, width) for level in levels]))
        return found

    def read_library(self, tree):
        self.padstacks, self.images = {}, {}
        for library in tree.lists("library"):
            for stack in library.lists("padstack"):
                pieces = []
                for shape in stack.lists("shape"):
                    forms = [part for part in shape if isinstance(part, Group)]
                    levels, spine, width = self.shape(forms[0])
                    pieces += [Piece(level, spine, width) for level in levels]
                self.padstacks[stack.words()[0]] = pieces
            for image in library.lists("image"):
                pins = []
                for pin in image.lists("pin"):
                    words = pin.words()
                    angle = [self.angle(r.words()[0]) for r in pin.lists("rotate")]
                    pins.append((words[0], words[1], self.point(words[2:4]), angle[-1] if angle else 0))
                self.images[image.words()[0]] = pins, self.bans_of(image)

    def angle(self, word):
        return rounded(decimal(word) * 1000000) % 360000000

    def is_usable(self, name):
        pieces = self.padstacks.get(name, [])
        levels = {p.layer for p in pieces}
        return len(levels) > 1 and all(any(p.layer == k and p.holds((0, 0)) for p in pieces) for k in levels)

    def read_network(self, tree):
        self.nets, classes = [], {}
        for network in tree.lists("network"):
            for part in network.lists("net"):
                net = Net(part.words()[0])
                net.refs = [word for pins in part.lists("pins") for word in pins.words()]
                net.own = self.rules(part)
                self.nets.append(net)
            for part in network.lists("class"):
                uses = [word for c in part.lists("circuit") for use in c.lists("use_via") for word in use.words()]
                for name in part.words()[1:]:
                    classes[name] = self.rules(part), uses
        for net in self.nets:
            net.group, uses = classes.get(net.name, ({"width": None, "clearances": []}, []))
            net.vias = [name for name in (uses or self.via_names) if self.is_usable(name)]
            widths = [rules["width"] for rules in (net.own, net.group, self.own) if rules["width"]]
            net.width = widths[0] if widths else 250000
        self.numbers = {net.name: k for k, net in enumerate(self.nets)}

    def place(self, tree):
        """The items of components, and for each pin its name, its net and its centre."""
        self.fixed, self.pins, self.places = [], [], []
        for loops, width in self.bounds:
            pieces = [Piece(level, (False, loop + loop[:1]), width) for level in range(len(self.layers))
                      for loop in loops]
            self.fixed.append(Item("area", None, pieces))
        for bans, pieces in self.keepouts:
            self.fixed.append(Item("area", None, pieces, bans=bans))
        found = {}
        for placement in tree.lists("placement"):
            for component in placement.lists("component"):
                for place in component.lists("place"):
                    words = place.words()
                    if len(words) > 2:
                        self.place_one(self.images[component.words()[0]], words, found)
        for number, net in enumerate(self.nets):
            for ref in net.refs:
                pin = found[ref]
                if pin not in net.pins:
                    net.pins.append(pin)
                self.pins[pin][1] = number
                self.pins[pin][3].net = number

    def place_one(self, image, words, found):
        at, is_back = self.point(words[1:3]), len(words) > 3 and words[3].lower() == "back"
        angle = self.angle(words[4]) if len(words) > 4 else 0
        self.places.append(at)

        def put(p):
            if is_back and not self.turns_first:
                p = -p[0], p[1]
            p = turned(p, angle)
            if is_back and self.turns_first:
                p = -p[0], p[1]
            return p[0] + at[0], p[1] + at[1]

        def level(layer):
            return len(self.layers) - 1 - layer if is_back else layer

        pins, bans = image
        for kinds, pieces in bans:
            self.fixed.append(Item("area", None, [p.moved(put, level(p.layer)) for p in pieces], bans=kinds))
        for stack, name, centre, own in pins:
            def put_pin(p, centre=centre, own=own):
                p = turned(p, own)
                return put((p[0] + centre[0], p[1] + centre[1]))

            pieces = [p.moved(put_pin, level(p.layer)) for p in self.padstacks[stack]]
            kind = "smd" if len({p.layer for p in pieces}) == 1 else "pin"
            item = Item(kind, None, pieces, metal=("pad", len(self.pins)))
            found[words[0] + "-" + name] = len(self.pins)
            self.pins.append([words[0] + "-" + name, None, put_pin((0, 0)), item])
            self.fixed.append(item)

    def lay(self, tree):
        """The fixed wiring, and the lengths of all wiring."""
        self.wiring = []
        for wiring in tree.lists("wiring"):
            for part in wiring.lists("wire", "via"):
                kinds = [word.lower() for kind in part.lists("type") for word in kind.words()]
                nets = [word for net in part.lists("net") for word in net.words()]
                net = self.numbers[nets[0]] if nets else None
                if part.head() == "wire":
                    levels, spine, width = self.shape(part.lists("path")[0])
                    metal = "wire", levels[0], width, tuple(spine[1])
                else:
                    metal = "via", part.words()[0], self.point(part.words()[1:3])
                self.wiring.append(metal)
                if net is None or set(kinds) & {"fix", "protect"}:
                    self.fixed.append(self.item(net, metal, True))

    def item(self, net, metal, fixed=False):
        if metal[0] == "wire":
            pieces = [Piece(metal[1], (False, list(metal[3])), metal[2])]
        else:
            x, y = metal[2]
            pieces = [p.moved(lambda q: (q[0] + x, q[1] + y), p.layer) for p in self.padstacks[metal[1]]]
        return Item(metal[0], net, pieces, metal, fixed=fixed)

    def scale_nm(self):
        """The nm of a unit of the session."""
        if NM[self.unit_name] % self.per:
            return 1
        unit = NM[self.unit_name] // self.per
        lengths = [x for place in self.places for x in place] + [net.width for net in self.nets]
        stacks = {name for net in self.nets for name in net.vias} | {m[1] for m in self.wiring if m[0] == "via"}
        for name in stacks:
            for p in self.padstacks[name]:
                lengths += [p.width] + [x for s in p.segments for q in s for x in q]
        for metal in self.wiring:
            points = metal[3] if metal[0] == "wire" else [metal[2]]
            lengths += [x for q in points for x in q] + ([metal[2]] if metal[0] == "wire" else [])
        return unit if all(x % unit == 0 for x in lengths) else 1

    def clearance(self, a, b):
        return max(self.clearance_of(item.net, {a.kind, b.kind}, a.kind == b.kind) for item in (a, b))

    def clearance_of(self, net, kinds, alike):
        levels = [self.own] if net is None else [self.nets[net].own, self.nets[net].group, self.own]
        for rules in levels:
            exact, smd, plain = None, None, None
            for types, value in rules["clearances"]:
                for name in types or [None]:
                    if name is None:
                        plain = value
                    elif name == "default_smd":
                        smd = value if "smd" in kinds else smd
                    else:
                        parts = name.split("_")
                        if len(parts) == 2 and set(parts) == kinds and (parts[0] == parts[1]) == alike:
                            exact = value
            for value in (exact, smd, plain):
                if value is not None:
                    return value
        return 0

"""A scene as a picture, in SVG: layer by layer from above, then from two sides, with the body before its tick and, where the library is built, after
it. Nothing of the rules but the look-up of a cell is worked out here: where the body comes to is the library's answer, and blocks are drawn as they
were recorded."""
import html
import math
import os
import sys

import scenecheck
import scenelog
from scenefile import BODY, BOX_WORDS, STATE, STATE_WORDS, WINDOW, Mistake, arrays, divided, f32, heights, pieces, value, values

sys.path.append(os.path.join(os.path.dirname(os.path.abspath(__file__)), "..", "hosts"))
import boltjuniper

WIDE = 1040  # of the picture; panels that do not fit beside each other stand below
MOST_CELLS, MOST_LAYERS, MOST_FRAMES = 20, 6, 8
STYLE = """
text { font: 13px sans-serif; fill: #222 } .title { font-size: 20px; font-weight: bold } .head { font-size: 15px; font-weight: bold }
.tick { font-size: 11px; fill: #666 } .state { font-size: 10px; fill: #555 } .edge { fill: none; stroke: #999; stroke-width: 0.5 }
.air { fill: #fff } .beyond { fill: #dceefb } .limit { stroke: #0b5394; stroke-width: 3; stroke-dasharray: 10 4; fill: none }
.outside { fill: url(#outside) } .unloaded { fill: url(#unloaded) } .unregistered { fill: url(#unregistered) }
.water { fill: #7db7f0; fill-opacity: 0.6 } .lava { fill: #f08a4b; fill-opacity: 0.7 }
.cube { fill: #b9b9b9; stroke: #777 } .part { fill: #d9c7a0; stroke: #8a7748 } .joins { fill: #c79a6b; stroke: #7a5230 }
.reaches { fill: none; stroke: #7a5230; stroke-dasharray: 2 3 } .collected { fill: #e06c00; fill-opacity: 0.15; stroke: #e06c00; stroke-width: 2.5 }
.before { fill: #3366cc; fill-opacity: 0.12; stroke: #3366cc; stroke-width: 2; stroke-dasharray: 6 4 }
.after { fill: #1a8a3a; fill-opacity: 0.18; stroke: #1a8a3a; stroke-width: 2 } .faint { fill: none; stroke-opacity: 0.35; stroke-width: 1 }
.way { stroke: #c2185b; stroke-width: 2; fill: none; marker-end: url(#tip) } .mark { fill: #222; font-size: 15px; font-weight: bold }
"""
DEFS = """<defs>
<pattern id="outside" width="8" height="8" patternUnits="userSpaceOnUse"><rect width="8" height="8" fill="#e4e4e4"/><path d="M0 8L8 0M0 0L8 8"
 stroke="#b0b0b0" stroke-width="1"/></pattern>
<pattern id="unloaded" width="8" height="8" patternUnits="userSpaceOnUse"><rect width="8" height="8" fill="#d3c4e6"/><path
 d="M-2 2L2 -2M0 8L8 0M6 10L10 6" stroke="#6a3fa0" stroke-width="1.5"/></pattern>
<pattern id="unregistered" width="8" height="8" patternUnits="userSpaceOnUse"><rect width="8" height="8" fill="#fbe3ea"/><circle cx="4" cy="4" r="1.5"
 fill="#c2185b"/></pattern>
<marker id="tip" viewBox="0 0 8 8" refX="7" refY="4" markerWidth="7" markerHeight="7" orient="auto"><path d="M0 0L8 4L0 8z" fill="#c2185b"/></marker>
</defs>"""
LEGEND = (
    ("before", "the body before its tick"), ("after", "the body after it"), ("way", "the way of its feet"),
    ("collected", "a box that its move collected"), ("cube", "a full cube"), ("part", "a block of another shape"),
    ("joins", "a fence, pane or wall, as recorded; the rules join it anew by its neighbours"),
    ("reaches", "a box that reaches up out of the layer below"), ("water", "water"), ("lava", "lava"),
    ("unloaded", "a column that was not loaded: solid to the rules at every height"),
    ("unregistered", "a state that the tables do not have: no block"),
    ("limit", "where the world ends"), ("beyond", "above or below the world: air, recorded or not"), ("outside", "not recorded: outside the window"))
LINES = ("way", "limit")  # of the legend, drawn as lines


# ---- SVG

def rectangle(x, y, w, h, cls):
    return '<rect x="%.6g" y="%.6g" width="%.6g" height="%.6g" class="%s"/>' % (x, y, w, h, cls)


def words(x, y, text, cls="", anchor="start"):
    return '<text x="%.6g" y="%.6g" class="%s" text-anchor="%s">%s</text>' % (x, y, cls, anchor, html.escape(text))


def said(numbers):
    return "(%s)" % ", ".join("%.17g" % x if len("%.17g" % x) < 9 else repr(x) for x in numbers)


# ---- the scene, by cells

class World:
    def __init__(self, scene):
        self.records, self.shapes = pieces(scene.records, STATE_WORDS), [[f32(w) for w in b] for b in pieces(scene.boxes, BOX_WORDS)]
        self.cells, self.columns = divided(scene)
        self.origin, self.sizes = values(scene.window, WINDOW["origin"]), values(scene.window, WINDOW["sizes"])
        self.lowest, self.highest = heights(scene)
        self.air = value(scene.body, BODY["air"])

    def at(self, cell):
        """What the rules find in a cell: `outside`, `unloaded`, `unregistered`, or its state. Its column decides first, then the world's ends."""
        x, y, z = (c - o for c, o in zip(cell, self.origin))
        sx, sy, sz = self.sizes
        if not (0 <= x < sx and 0 <= z < sz):
            return "outside"
        if not self.columns[z * sx + x]:
            return "unloaded"
        if not self.is_beyond(cell[1]) and not 0 <= y < sy:
            return "outside"
        state = self.air if self.is_beyond(cell[1]) else self.cells[(y * sz + z) * sx + x]
        return state if state < len(self.records) and self.records[state][0] & 1 else "unregistered"

    def is_beyond(self, y):
        """Above or below the world."""
        return y < self.lowest or y > self.highest

    def boxes(self, cell):
        """The recorded boxes of a cell, in the world, each with the kind that it is drawn as."""
        state = self.at(cell)
        if isinstance(state, str):
            return
        first, count = values(self.records[state], STATE["boxes"])
        joins = value(self.records[state], STATE["connects"])
        for box in self.shapes[first:first + count]:
            kind = "joins" if joins else "cube" if box == [0, 0, 0, 1, 1, 1] else "part"
            yield kind, [b + cell[k % 3] for k, b in enumerate(box)]

    def has_liquid(self):
        wet = {k for k, record in enumerate(self.records) if value(record, STATE["liquid"])}
        return not wet.isdisjoint(self.cells + [self.air])

    def liquid(self, cell):
        """Its kind and the height of its surface."""
        state = self.at(cell)
        kind, depth = values(self.records[state], STATE["liquid"]) if not isinstance(state, str) else (0, 0)
        return ("", "water", "lava")[kind], 1.0 if depth >= 8 else 1 - depth / 9


def body_box(feet, width, height):
    x, y, z = feet
    return [x - width / 2, y, z - width / 2, x + width / 2, y + height, z + width / 2]


# by the case of the sample that a tick takes under its body
UNDER = {
    "not asked": "", "sampled": ", on a block of friction %s", "air": ", over air", "unloaded": ", over a cell that was not loaded",
    "unregistered": ", over a block that the tables do not register",
}


def under(t):
    return UNDER[t.support] % said((t.friction,))[1:-1] if t.support == "sampled" else UNDER[t.support]


class Tick:
    """The tick by the library: `feet`, where the body comes to, or nothing; `collected`, the boxes of its move; and what is said of both."""

    def __init__(self, scene, before, has_liquid):
        tables, window, body = arrays(scene)
        self.feet, self.collected, self.unsaid = None, [], "the library has no function that tells them"
        lent = boltjuniper.Tables(*tables), boltjuniper.Window(*window)
        try:
            t = boltjuniper.step(*lent, boltjuniper.Body(*body))
        except boltjuniper.NotBuilt:
            self.line = "After: not worked out here, since the library is not built (hosts/build makes it)."
            return
        except boltjuniper.Refused as refused:
            self.line = "After: refused %d. %s It says nothing about the body." % (refused.number, refused.sentence)
            return
        liquid = "" if t.liquid == "none" else ", in %s" % t.liquid
        self.feet = t.feet
        ground = "on the ground" if t.ground else "in the air"
        self.line = "After: feet %s, velocity %s, %s%s%s." % (said(t.feet), said(t.velocity), ground, liquid, under(t))
        if boltjuniper.has("collected"):
            self.collect(scene, lent, before, has_liquid)

    def collect(self, scene, lent, before, has_liquid):
        """The boxes of the move, whose delta is the velocity, and gravity where it comes before the move. An item's is not known from outside where
        there may be a current, or where it may be at rest."""
        number = {key: value(scene.body, BODY[key]) for key in ("model", "stage", "gravity", "step_height", "air", "cap")}
        if number["model"] == 0 and (has_liquid or list(self.feet) == values(scene.body, BODY["position"])):
            self.unsaid = "an item's own way through a liquid, or at rest, is not told"
            return
        x, y, z = values(scene.body, BODY["velocity"])
        delta = (x, y - number["gravity"] if number["stage"] == 0 else y, z)
        try:
            mover = boltjuniper.Mover(tuple(before), delta, number["step_height"], cap=number["cap"])
            self.collected, self.unsaid = boltjuniper.collected(*lent, number["air"], mover), ""
        except boltjuniper.Refused as refused:  # a direct call's limits are narrower than a body's
            self.unsaid = "a move of its own is refused by %d here" % refused.number


# ---- panels

class Panel:
    """A view of some cells: u to the right, v down, or up where it is the height; `depth` is the axis that is looked along."""

    def __init__(self, title, u, v, low, high, scale):
        self.title, self.u, self.v, self.depth, self.scale = title, u, v, 3 - u - v, scale
        self.low, self.high = low, high  # cells, both ends included
        across, down = (max(len(str(low[k])), len(str(high[k] + 1))) for k in (u, v))  # digits of the numbers along each edge
        self.left, self.top = max(26 + 7 * down, 10 + 4 * across), 44
        self.width = max(self.left + (high[u] + 1 - low[u]) * scale + 14 + 4 * across, self.left + 7 * len(title))
        self.height = self.top + (high[v] + 1 - low[v]) * scale + 30
        self.out = []

    def place(self, u, v):
        y = self.high[self.v] + 1 - v if self.v == 1 else v - self.low[self.v]
        return self.left + (u - self.low[self.u]) * self.scale, self.top + y * self.scale

    def corner(self, point):
        """Where a point is, or the nearest that the panel has."""
        return self.place(*(min(max(point[k], self.low[k]), self.high[k] + 1) for k in (self.u, self.v)))

    def box(self, b, cls):
        """A box, cut to the panel."""
        (x0, y0), (x1, y1) = self.corner(b[:3]), self.corner(b[3:])
        if x1 > x0 and y1 != y0:
            self.out.append(rectangle(x0, min(y0, y1), x1 - x0, abs(y1 - y0), cls))

    def meets(self, b):
        return b[self.depth] < self.high[self.depth] + 1 and b[self.depth + 3] > self.low[self.depth]

    def cells(self):
        ranges = [range(self.low[k], self.high[k] + 1) for k in range(3)]
        return [(x, y, z) for y in ranges[1] for x in ranges[0] for z in ranges[2]]

    def draw(self, world, before, after, collected):
        self.out.append(words(self.left, 18, self.title))
        for cell in self.cells():
            self.ground(world, cell)
        for cell in self.cells():
            for kind, box in world.boxes(cell):
                self.box(box, "box " + kind)
        if self.depth == 1:
            for cell in self.cells():
                for kind, box in world.boxes((cell[0], cell[1] - 1, cell[2])):
                    if box[4] > cell[1]:
                        self.box(box, "reaches")
        for cell in self.cells():
            self.label(world, cell)
        self.ruler()
        self.limits(world)
        for box in collected:
            if self.meets(box):
                self.box(box, "collected")
        for cls, box in (("before", before), ("after", after)):
            if box:
                self.box(box, "body %s%s" % (cls, "" if self.meets(box) else " faint"))
        if after:
            self.way(before, after)
        return self

    def ground(self, world, cell):
        cube = [*cell, *(c + 1 for c in cell)]
        state = world.at(cell)
        self.box(cube, "cell " + (state if isinstance(state, str) else "beyond" if world.is_beyond(cell[1]) else "air"))
        liquid, surface = world.liquid(cell)
        if liquid:
            self.box(cube[:4] + [cell[1] + surface] + cube[5:], "liquid " + liquid)

    def label(self, world, cell):
        """Edges, and the number of a cell's state where one row is looked at."""
        self.box([*cell, *(c + 1 for c in cell)], "edge")
        if self.low[self.depth] == self.high[self.depth] and self.scale >= 26:
            state = world.at(cell)
            x, y = self.place(cell[self.u], cell[self.v] + (1 if self.v == 1 else 0))
            if state == "unloaded":
                self.out.append(words(x + self.scale / 2, y + self.scale / 2 + 5, "?", "mark", "middle"))
            elif not isinstance(state, str) and not world.is_beyond(cell[1]):
                self.out.append(words(x + 3, y + 11, str(state), "state"))

    def limits(self, world):
        """From a side, where the world begins and ends."""
        (low, high), (left, right) = ((self.low[k], self.high[k] + 1) for k in (self.v, self.u))
        for y in (world.lowest, world.highest + 1) if self.v == 1 else ():
            if low <= y <= high:
                self.out.append('<path d="M%.6g %.6gL%.6g %.6g" class="limit"/>' % (*self.place(left, y), *self.place(right, y)))

    def ruler(self):
        """The coordinates along both axes, and what each way is called."""
        (u_low, u_high), (v_low, v_high) = ((self.low[k], self.high[k] + 1) for k in (self.u, self.v))
        bottom = max(self.place(u_low, v_low)[1], self.place(u_low, v_high)[1])
        apart = math.ceil(8 * max(len(str(u_low)), len(str(u_high))) / self.scale)  # so that numbers beside each other can be read
        for u in range(u_low, u_high + 1, apart):
            self.out.append(words(self.place(u, v_low)[0], bottom + 13, str(u), "tick", "middle"))
        for v in range(v_low, v_high + 1):
            self.out.append(words(self.left - 5, self.place(u_low, v)[1] + 4, str(v), "tick", "end"))
        right = self.place(u_high, v_low)[0]
        self.out.append(words(right, bottom + 26, "xyz"[self.u] + (", east →" if self.u == 0 else ", south →"), "tick", "end"))
        self.out.append(words(6, self.top - 10, "y, up ↑" if self.v == 1 else "z, south ↓", "tick"))

    def way(self, before, after):
        a, b = ([(x[k] + x[k + 3]) / 2 if k != 1 else x[1] for k in range(3)] for x in (before, after))
        (x0, y0), (x1, y1) = self.corner(a), self.corner(b)
        if math.hypot(x1 - x0, y1 - y0) > 2:
            self.out.append('<path d="M%.6g %.6gL%.6g %.6g" class="way"/>' % (x0, y0, x1, y1))


# ---- the picture

def shown(boxes, velocity):
    """The cells around a body, before and after and where its velocity points: a ring beside it, and the layer below. At most so many."""
    swept = boxes + [[b + velocity[k % 3] for k, b in enumerate(boxes[0])]]
    low = [math.floor(min(b[k] for b in swept)) - 1 for k in range(3)]
    high = [math.floor(max(b[k + 3] for b in swept)) + (0 if k == 1 else 1) for k in range(3)]
    cut = False
    for k, most in enumerate((MOST_CELLS, MOST_LAYERS, MOST_CELLS)):
        if high[k] - low[k] >= most:
            cut = True
            low[k] = max(low[k], min(math.floor(boxes[0][k]) - 1, high[k] + 1 - most))
            high[k] = low[k] + most - 1
    return low, high, cut


def layers(world, low, high, boxes, scale):
    """From above: a panel for each layer, the lowest first."""
    feet = math.floor(boxes[0][1])
    for y in range(low[1], high[1] + 1):
        met = any(b[1] < y + 1 and b[4] > y for b in boxes)
        end = "above the world" if y > world.highest else "below the world" if y < world.lowest else ""
        where = ", ".join(filter(None, ("feet" if y == feet else "body" if met else "", end))) or ("below" if y < feet else "above")
        yield Panel("y = %d, %s" % (y, where), 0, 2, [low[0], y, low[2]], [high[0], y, high[2]], scale)


def sides(low, high, boxes, scale):
    """From two sides: the rows of cells that the body is in, before or after."""
    for u, depth, title in ((0, 2, "from the south, "), (2, 0, "from the west, ")):
        first = max(low[depth], math.floor(min(b[depth] for b in boxes)))
        last = min(high[depth], math.ceil(max(b[depth + 3] for b in boxes)) - 1)
        rows = "%s = %d" % ("xyz"[depth], first) + (" to %d" % last if last > first else "")
        side_low, side_high = list(low), list(high)
        side_low[depth], side_high[depth] = first, last
        yield Panel(title + rows, u, 1, side_low, side_high, scale)


def flowed(title, drawn, y):
    """Panels beside each other as they fit, then below; and where they end."""
    out, x, row = [words(14, y + 14, title, "head")], 0, 0
    y += 20
    for p in drawn:
        if x and x + p.width > WIDE:
            x, y, row = 0, y + row, 0
        out.append('<g transform="translate(%d %d)">%s</g>' % (x, y, "\n".join(p.out)))
        x, row = x + p.width, max(row, p.height)
    return out, y + row


def legend(used, y):
    out, x = [words(14, y + 14, "What is what", "head")], 14
    y += 28
    for cls, text in LEGEND:
        if cls not in used:
            continue
        width = 44 + 7 * len(text)
        if x > 14 and x + width > WIDE:
            x, y = 14, y + 24
        out.append('<path d="M%d %dh24" class="%s"/>' % (x, y + 8, cls) if cls in LINES else rectangle(x, y, 24, 15, cls))
        out.append(words(x + 30, y + 12, text))
        x += width
    return out, y + 34


def heading(scene, name):
    feet, velocity = (said(values(scene.body, BODY[key])) for key in ("position", "velocity"))
    ground = "on the ground" if value(scene.body, BODY["ground"]) else "in the air"
    return [words(14, 30, os.path.basename(name), "title"), words(14, 54, "Before: feet %s, velocity %s, %s." % (feet, velocity, ground))]


def refused_picture(scene, name, causes):
    lines = ["This scene is refused before a cell is asked for, and nothing can be drawn of it. It says nothing about the body."]
    lines += ["refused %d: %s" % cause for cause in causes[:20]]
    return wrapped(heading(scene, name) + [words(14, 76 + 18 * k, line) for k, line in enumerate(lines)], 90 + 18 * len(lines))


def picture(scene, name):
    causes = list(scenecheck.causes(scene))
    if causes:
        return refused_picture(scene, name, causes)
    width, height = (value(scene.body, BODY[key]) for key in ("width", "height"))
    world, before = World(scene), body_box(values(scene.body, BODY["position"]), width, height)
    tick = Tick(scene, before, world.has_liquid())
    after = body_box(tick.feet, width, height) if tick.feet else None
    boxes = [before] + ([after] if after else [])
    low, high, cut = shown(boxes, values(scene.body, BODY["velocity"]))
    told = heading(scene, name) + [words(14, 74, tick.line)]
    if cut:
        told.append(words(14, 94, "Only the cells nearest to the body are shown."))
    scale = min(64, max(16, 400 // max(high[k] + 1 - low[k] for k in range(3))))
    drawn, y = [], 110
    for title, panels in (("From the side", sides(low, high, boxes, scale)), ("From above, layer by layer", layers(world, low, high, boxes, scale))):
        more, y = flowed(title, [p.draw(world, before, after, tick.collected) for p in panels], y)
        drawn, y = drawn + more, y + 10
    used = {cls for cls, _ in LEGEND if any('%s"' % cls in d or "%s " % cls in d for d in drawn)}
    below, y = legend(used, y - 4)
    left_out = " Boxes that the move collected are not shown: %s." % tick.unsaid if tick.feet and tick.unsaid else ""
    below.append(words(14, y + 6, "Coordinates stand along the edges; a small number in a cell is its state." + left_out, "tick"))
    return wrapped(told + drawn + below, y + 20)


def frames_of(events, most):
    """Which ticks a strip shows: the first, the last, each that follows a set, and others between while there is room."""
    after, ticks, last = [], 0, True
    for e in events:
        if e is None:
            after += [ticks] if last else []
            ticks += 1
        last = e is not None
    if ticks <= most:
        return list(range(ticks))
    kept = {0, ticks - 1, *after[:most - 2]}
    for k in range(most):
        kept |= {k * (ticks - 1) // (most - 1)} if len(kept) < most else set()
    return sorted(kept)


def strip(scene, events, name):
    """A minute: pictures of some of its ticks, side by side, each as its scene then was."""
    try:
        ticks = list(scenelog.played(scene, events, boltjuniper)) if not list(scenecheck.causes(scene)) else []
    except boltjuniper.NotBuilt:
        raise Mistake("a minute is drawn with the library, which is not built (hosts/build makes it)") from None
    if not ticks:
        return picture(scene, name)
    shown_ticks = [k for k in frames_of(events, MOST_FRAMES) if k < len(ticks)]
    if len(ticks) - 1 not in shown_ticks:
        shown_ticks.append(len(ticks) - 1)
    drawn = [picture(ticks[k][0], "%s, tick %d of %d" % (name, k + 1, len(ticks))) for k in shown_ticks]
    tall = max(int(d.split('height="')[1].split('"')[0]) for d in drawn)
    beside = [d.replace("<svg ", '<svg x="%d" y="0" ' % (k * WIDE), 1) for k, d in enumerate(drawn)]
    return '<svg xmlns="http://www.w3.org/2000/svg" width="%d" height="%d">\n%s</svg>\n' % (WIDE * len(drawn), tall, "".join(beside))


def wrapped(out, height):
    return "\n".join(['<svg xmlns="http://www.w3.org/2000/svg" width="%d" height="%d" viewBox="0 0 %d %d">' % (WIDE, height, WIDE, height),
                      "<style>%s</style>" % STYLE, DEFS, rectangle(0, 0, WIDE, height, "air"), *out, "</svg>", ""])

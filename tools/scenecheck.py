"""Which of the refusals 1 to 4 a scene meets before any cell is asked for, each with the place of its cause. The program says the first number alone;
crates/table_check/specs/Check.antt, crates/window/specs/Window.antt and crates/bodies/specs/Limits.antt have the rules, in this order. Sizes and
counts are not among them here: a file that breaks one is no scene, which is 8 (scenefile.py)."""
import math

from scenefile import BODY, BOX_WORDS, F32, F64, STATE, STATE_WORDS, WINDOW, divided, f32, f64, heights, pieces, places, value, values

AXES = "xyz"
SMALL = ("offset", "gravity", "vertical_drag", "horizontal_drag", "flap", "default_friction", "sample_depth", "liquid_gravity", "water_drag",
         "lava_drag")
MOST = {"flags": [3], "liquid": [2, 15], "connects": [4], "gate": [2], "post": [5]}  # of a state's words
CASES = {"model": 3, "stage": 2, "ground_friction": 1, "flap_present": 1, "ground": 1, "cap": 512}
FAMILIES = ("nothing", "a fence", "a nether brick fence", "thin", "a wall")


def within(x, most):
    return math.isfinite(x) and abs(x) <= most


def said(words, kind):
    """A number, and its bits where they are no decimal."""
    x = f32(words[0]) if kind is F32 else f64(words)
    return kind.show(words) if math.isfinite(x) else "%r (%s)" % (x, kind.show(words))


# ---- face cover: which of the unit square the rectangles at or past a face cover

def clamped(x):
    return min(max(x, 0.0), 1.0)


def covers(rectangles):
    """The edges cut the square into pieces that lie in a rectangle whole or not at all."""
    if any(math.isnan(edge) for r in rectangles for edge in r):
        return False
    cut = [[clamped(edge) for edge in r] for r in rectangles]
    us = sorted({0.0, 1.0} | {u for r in cut for u in (r[0], r[2])})
    vs = sorted({0.0, 1.0} | {v for r in cut for v in (r[1], r[3])})
    return all(any(r[0] <= u and u1 <= r[2] and r[1] <= v and v1 <= r[3] for r in cut) for u, u1 in zip(us, us[1:]) for v, v1 in zip(vs, vs[1:]))


def full_faces(boxes):
    """Word 19: bit 0 north, 1 east, 2 south, 3 west."""
    north = [(b[0], b[1], b[3], b[4]) for b in boxes if b[2] <= 0]
    east = [(b[2], b[1], b[5], b[4]) for b in boxes if b[3] >= 1]
    south = [(b[0], b[1], b[3], b[4]) for b in boxes if b[5] >= 1]
    west = [(b[2], b[1], b[5], b[4]) for b in boxes if b[0] <= 0]
    return sum(covers(r) << k for k, r in enumerate((north, east, south, west)))


# ---- 1

def link_causes(records, state, kind):
    words = records[state]
    for k in range(STATE["sides"].at, STATE["posts"].at + 2):
        if kind == 0:
            if words[k]:
                yield "word %d: is %d, must be 0: it connects as nothing" % (k, words[k])
        elif words[k] >= len(records) or not records[words[k]][0] & 1:
            yield "word %d: leads to record %d, which is not registered" % (k, words[k])
        elif records[words[k]][4] != kind:
            yield "word %d: leads to record %d, whose word 4 is %d, must be %d" % (k, words[k], records[words[k]][4], kind)
        elif k >= STATE["posts"].at and kind != 4 and words[k] != state:
            yield "word %d: is %d, must be %d: the post of %s is itself" % (k, words[k], state, FAMILIES[kind])


def record_causes(records, boxes, state):
    words = records[state]
    if not words[0] & 1:
        for k, w in enumerate(words):
            if w:
                yield "word %d: is %d, must be 0: it is not registered" % (k, w)
        return
    for key, most in MOST.items():
        for k, limit in enumerate(most, STATE[key].at):
            if words[k] > limit:
                yield "word %d: is %d, must be 0 to %d" % (k, words[k], limit)
    if words[2] == 0 and 0 < words[3] <= 15:
        yield "word 3: is %d, must be 0: there is no liquid" % words[3]
    if not within(f32(words[1]), 16):
        yield "word 1: friction is %s, must be of size at most 16" % said(words[1:2], F32)
    first, count = values(words, STATE["boxes"])
    if count > 16:
        yield "word 8: is %d, must be at most 16" % count
    if first + count > len(boxes):
        yield "words 7 and 8: sum to %d, and there are %d boxes" % (first + count, len(boxes))
    if words[4] <= 4:
        yield from link_causes(records, state, words[4])
    if count <= 16 and first + count <= len(boxes):
        faces = full_faces(boxes[first:first + count])
        if words[19] != faces:
            yield "word 19: is %d, face cover gives %d" % (words[19], faces)


def box_causes(words):
    numbers = [f32(w) for w in words]
    for k, x in enumerate(numbers):
        if not within(x, 4):
            yield "number %d: is %s, must be of size at most 4" % (k, said(words[k:k + 1], F32))
    for k in range(3):
        if numbers[k] > numbers[k + 3]:
            yield "numbers %d and %d: least %s is %s, above greatest, %s" % (k, k + 3, AXES[k], numbers[k], numbers[k + 3])


def table_causes(scene):
    records, shapes = pieces(scene.records, STATE_WORDS), pieces(scene.boxes, BOX_WORDS)
    boxes = [[f32(w) for w in box] for box in shapes]
    for state in range(len(records)):
        for cause in record_causes(records, boxes, state):
            yield "record %d, %s" % (state, cause)
    for k, box in enumerate(shapes):
        for cause in box_causes(box):
            yield "box %d, %s" % (k, cause)


# ---- 2 to 4

def window_causes(scene):
    (ox, oy, oz), (sx, _, _) = values(scene.window, WINDOW["origin"]), values(scene.window, WINDOW["sizes"])
    lowest, highest = heights(scene)
    for what, c in (("origin x", ox), ("origin y", oy), ("origin z", oz), ("lowest", lowest), ("highest", highest)):
        if abs(c) > 2**25:
            yield "%s: is %d, must be of size at most 33554432" % (what, c)
    if lowest > highest:
        yield "lowest: is %d, above highest, %d" % (lowest, highest)
    for k, word in enumerate(divided(scene)[1]):
        if word > 1:
            yield "column x = %d, z = %d: is %d, must be 0 or 1" % (ox + k % sx, oz + k // sx, word)


def number_causes(scene):
    body = scene.body

    def told(key, fits, must):
        if not fits(value(body, BODY[key])):
            yield "%s: is %s, must be %s" % (key, said(body[BODY[key].at:BODY[key].at + 2], F64), must)

    for key in ("width", "height"):
        yield from told(key, lambda x: within(x, 16) and x > 0, "over 0 and at most 16")
    for key in SMALL:
        yield from told(key, lambda x: within(x, 16), "of size at most 16")
    yield from told("step_height", lambda x: within(x, 4) and x >= 0, "0 to 4")
    for key, most in CASES.items():
        if value(body, BODY[key]) > most:
            yield "%s: is %d, must be 0 to %d" % (key, value(body, BODY[key]), most)
    air = value(body, BODY["air"])
    if STATE_WORDS * air >= len(scene.records) or not scene.records[STATE_WORDS * air] & 1:
        yield "air: is %d, and record %d is not registered" % (air, air)


def motion_causes(scene):
    for key, most in (("position", 2**25), ("velocity", 64)):
        for axis, place in zip(AXES, places(BODY[key])):
            if not within(f64(scene.body[place]), most):
                yield "%s %s: is %s, must be of size at most %d" % (key, axis, said(scene.body[place], F64), most)


def causes(scene):
    """A pair of the refusal and its cause for each that there is, in order."""
    for refusal, found in enumerate((table_causes, window_causes, number_causes, motion_causes), 1):
        for cause in found(scene):
            yield refusal, cause

"""The classroom palette: 212 states with names, and their tables, worked out here from the text of the request alone, so that what the library hands out
(crates/palette) has something to be held to. A state is written as its block and what is joined, `oak_fence north east`; the side of a wall is short,
or tall where that is said behind it, and its post is said too: `wall north tall east post`."""
import struct

SIDES = ("north", "east", "south", "west")
FIRST = {"air": 0, "cube": 1, "oak_fence": 2, "nether_brick_fence": 18, "pane": 34, "wall": 50}
STATES = 212
FRICTION = 0.6
FENCE, PANE = (6, 24), (7, 16)  # in sixteenths: the least edge of post and arms, and their height
WALL_POST, WALL_ARM, WALL_HEIGHT = 4, 5, 24

# What a text that has the palette may leave out: a walker, and the rules that the original has for one.
WALKER = """width 0.6
height 1.8
gravity 0.08
vertical_drag 0.98
horizontal_drag 0.91
step_height 0.5625
default_friction 0.6
sample_depth 0.1
liquid_gravity 0.02
water_drag 0.8
lava_drag 0.5
model living
stage after_move
ground_friction block
ground 1"""


def block_of(state):
    return max((first, name) for name, first in FIRST.items() if first <= state)[1]


def digits_of(state):
    """What is joined of a state: a number for each side, 0, 1 or 2, and last the post of a wall."""
    i, block = state - FIRST[block_of(state)], block_of(state)
    return [i // 3**p % 3 for p in range(5)] if block == "wall" else [i >> p & 1 for p in range(4)] + [0]


def state_of(block, digits):
    base = 3 if block == "wall" else 2
    return FIRST[block] + sum(d * base**p for p, d in enumerate(digits))


# ---- names

def read_block(words):
    """The state that a block's name and what follows it say; ValueError says what is wrong."""
    block, *rest = words
    if rest and FIRST[block] < 2:
        raise ValueError("`%s` has no sides, so no `%s`" % (block, rest[0]))
    digits, last = [0] * 5, None
    for word in rest:
        if word in ("short", "tall"):
            if block != "wall" or last is None:
                raise ValueError("`%s` stands behind a side of a wall" % word)
            digits[last], last = 1 + (word == "tall"), None
            continue
        last = SIDES.index(word) if word in SIDES else None
        at = 4 if last is None else last
        if at == 4 and block != "wall":
            raise ValueError("a wall alone has a `post` that is said")
        if digits[at]:
            raise ValueError("`%s` of `%s` was said before" % (word, block))
        digits[at] = 1
    return state_of(block, digits)


WORDS = (*SIDES, "short", "tall", "post")  # what may follow a block's name


def read_row(words):
    """The states of a row: a block's name with what follows it, or a number."""
    cells = []
    for word in words:
        if word in WORDS and cells and isinstance(cells[-1], list):
            cells[-1].append(word)
        elif word in WORDS:
            raise ValueError("`%s` stands behind the name of a block" % word)
        else:
            cells.append([word] if word in FIRST else word)
    return [read_block(c) if isinstance(c, list) else c for c in cells]


def name_of(state):
    if state >= STATES:
        return str(state)
    *sides, post = digits_of(state)
    out = [block_of(state)]
    for side, d in zip(SIDES, sides):
        out += [side] * (d > 0) + ["tall"] * (d > 1)
    return " ".join(out + ["post"] * post)


# ---- tables

def arms(low, reach, height, sides):
    """Boxes in sixteenths: north is towards z 0, east towards x 1."""
    high, far = 16 - low, 16 - reach
    four = ((low, 0, 0, high, height, reach), (far, 0, low, 16, height, high), (low, 0, far, high, height, 16), (0, 0, low, reach, height, high))
    return [b for b, d in zip(four, sides) if d]


def post(low, height):
    return (low, 0, low, 16 - low, height, 16 - low)


def boxes_of(state):
    """Post first, then north, east, south, west."""
    block, (*sides, on) = block_of(state), digits_of(state)
    if block in ("air", "cube"):
        return [post(0, 16)] * (block == "cube")
    if block == "wall":
        return [post(WALL_POST, WALL_HEIGHT)] * on + arms(WALL_ARM, 8, WALL_HEIGHT, sides)
    low, height = PANE if block == "pane" else FENCE
    return [post(low, height)] + arms(low, low, height, sides)


def links_of(state):
    """Words 9 to 18: each side off and on, then the post off and on."""
    block, digits = block_of(state), digits_of(state)
    out = []
    for p in range(5):
        for on in (0, 1):
            if block == "wall" or p < 4:
                out.append(state_of(block, digits[:p] + [(digits[p] or 1) if on else 0] + digits[p + 1:]))
            else:
                out.append(state)
    return out if FIRST[block] > 1 else [0] * 10


def tables():
    """The words of the records, and the bits of the boxes' numbers."""
    records, boxes = [], []
    for state in range(STATES):
        own, block = boxes_of(state), block_of(state)
        kind = ["air", "oak_fence", "nether_brick_fence", "pane", "wall"].index(block if block != "cube" else "air")
        records += [1 if state == 0 else 3, bits(FRICTION), 0, 0, kind, 0, digits_of(state)[4], len(boxes), len(own)]
        records += links_of(state) + [15 if state == 1 else 0]
        boxes += own
    return records, [bits(n / 16) for b in boxes for n in b]


def bits(x):
    return struct.unpack("<I", struct.pack("<f", x))[0]


# ---- what crates/palette_runs must write

def sums(numbers):
    each = after_each = 0
    for n in numbers:
        each = (each + n) % 2**64
        after_each = (after_each + each) % 2**64
    return "%d %d" % (each, after_each)


def double_bits(word):
    return struct.unpack("<Q", struct.pack("<d", struct.unpack("<f", struct.pack("<I", word))[0]))[0]


def expected():
    records, numbers = tables()
    seven, doubles = bits(7), [double_bits(w) for w in numbers]
    boxes = []
    for k in range(0, len(records), 20):
        first, count = records[k + 7:k + 9]
        boxes += doubles[first * 6:(first + count) * 6] + [0] * (6 * (6 - count))
    return "\n".join((
        "records, a word short: 11 " + sums([7] * (len(records) - 1)), "records: 0 " + sums(records + [7]),
        "boxes, a number short: 11 " + sums([double_bits(seven)] * (len(numbers) - 1)), "boxes: 0 " + sums(doubles + [double_bits(seven)]),
        "boxes looked up: 0 " + sums(boxes + [0] * 36), "the table check: 0 0 0")) + "\n"


if __name__ == "__main__":
    print(expected(), end="")

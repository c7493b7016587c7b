"""Scene files and the texts that people write them as: the layout of both, once, for tools/scene and what stands beside it.

A Scene has the words of each part of a file. `written` makes one of a text, `printed` a text of one, `packed` a file of one, and `unpacked` one of
a file. A text that can't be written is a Mistake, with the line; a file that is no scene is Malformed, with each cause that was found."""
import array
import difflib
import math
import re
import struct
from types import SimpleNamespace as Scene
from typing import Callable, NamedTuple

import scenepalette

OLD, NEW = 0x314E4353, 0x324E4353
RULES = {NEW: "the new rule: mark 53 43 4e 32, checks in words 126 and 127",
         OLD: "the old rule: mark 53 43 4e 31, one check, in word 127"}
WORD = 2**32
BLOCK, PAYLOAD, MOST_BLOCKS = 128, 123, 128
LOG_KIND = 6  # of the blocks behind a scene in a log, which scenelog.py has


class Mistake(Exception):
    """A line of a text that can't be written."""


class Malformed(Exception):
    """A file that is no scene, refusal 8: `causes` has a line for each."""

    def __init__(self, causes):
        super().__init__("; ".join(causes[:3]) + ("; and %d more" % len(causes[3:]) if causes[3:] else ""))
        self.causes = causes


# ---- what a value of a text is: how it is read to the words of a file, and shown again

DECIMAL = re.compile(r"[-+]?([0-9]+\.?[0-9]*|\.[0-9]+)([eE][-+]?[0-9]+)?|[-+]?inf|nan")


class Kind(NamedTuple):
    words: int
    read: Callable  # of a text, to words; ValueError says what is wrong
    show: Callable  # of words
    what: str = "number"


def low_first(n, words):
    return [n >> 32 * k & WORD - 1 for k in range(words)]


def joined(words):
    return sum(w << 32 * k for k, w in enumerate(words))


def f64(words):
    return struct.unpack("<d", struct.pack("<2I", *words))[0]


def f32(word):
    return struct.unpack("<f", struct.pack("<I", word))[0]


def read_float(text, code, digits, name):
    if text.startswith("0x"):
        if not re.fullmatch("0x[0-9a-fA-F]{%d}" % digits, text):
            raise ValueError("%s is not 0x and %d hex digits" % (text, digits))
        return low_first(int(text, 16), digits // 8)
    if not DECIMAL.fullmatch(text):
        raise ValueError("`%s` is no number" % text)
    try:
        x = float(text)
        bits = struct.pack(code, x)
    except OverflowError:
        x, bits = math.inf, b""
    if math.isinf(x) and "inf" not in text:
        raise ValueError("%s is beyond an %s" % (text, name))
    return list(struct.unpack("<%dI" % (digits // 8), bits))


def read_f64(text):
    return read_float(text, "<d", 16, "f64")


def read_f32(text):
    return read_float(text, "<f", 8, "f32")


def show_f64(words):
    return repr(f64(words)) if math.isfinite(f64(words)) else "0x%016x" % joined(words)


def show_f32(words):
    x = f32(words[0])
    for digits in range(1, 18) if math.isfinite(x) else ():  # the shortest decimal with these bits
        text = "%.*g" % (digits, x)
        try:
            if struct.pack("<f", float(text)) == struct.pack("<I", words[0]):
                return repr(float(text))
        except OverflowError:  # rounded up beyond the largest f32
            pass
    return "0x%08x" % words[0]


def whole(words, low, high):
    def read(text):
        if not re.fullmatch(r"[-+]?[0-9]+", text):
            raise ValueError("`%s` is no whole number" % text)
        if not low <= int(text) <= high:
            raise ValueError("%s does not fit: %d to %d does" % (text, low, high))
        return low_first(int(text) % (high - low + 1), words)

    def show(w):
        n = joined(w)
        return str(n - (high - low + 1) if n > high else n)

    return Kind(words, read, show)


def named(*names):
    def read(text):
        if text in names:
            return [names.index(text)]
        if re.match(r"[-+0-9]", text):
            return U32.read(text)
        raise ValueError("`%s` is none of %s, and no number" % (text, ", ".join(names)))

    return Kind(1, read, lambda w: names[w[0]] if w[0] < len(names) else str(w[0]), "name or number")


def read_cell(text):
    if text == "-":  # an unloaded cell, when cells were loaded one by one
        raise ValueError("`-` is no state: write any state here, and a 0 for its column in a row below `columns`")
    if text in scenepalette.FIRST:
        raise ValueError("`%s` is a name of the classroom palette's: write `palette classroom` above" % text)
    return U32.read(text)


F64 = Kind(2, read_f64, show_f64)
F32 = Kind(1, read_f32, show_f32)
U32 = whole(1, 0, WORD - 1)
I32 = whole(1, -2**31, 2**31 - 1)
U64 = whole(2, 0, 2**64 - 1)
CELL = Kind(1, read_cell, U32.show)

# ---- the layout: which words of a part a key of a text stands for. What follows it in the part follows it here.


class Field(NamedTuple):
    at: int
    kinds: tuple


def fields(*rows):
    table, at = {}, 0
    for key, *kinds in rows:
        table[key] = Field(at, tuple(kinds))
        at += sum(k.words for k in kinds)
    return table, at


BODY, BODY_WORDS = fields(
    ("position", F64, F64, F64), ("velocity", F64, F64, F64), ("width", F64), ("height", F64), ("offset", F64), ("gravity", F64),
    ("vertical_drag", F64), ("horizontal_drag", F64), ("flap", F64), ("step_height", F64), ("default_friction", F64), ("sample_depth", F64),
    ("liquid_gravity", F64), ("water_drag", F64), ("lava_drag", F64), ("age", U64), ("ground", U32),
    ("model", named("item", "living", "falling_block", "other")), ("stage", named("before_move", "after_move", "after_drag")),
    ("ground_friction", named("none", "block")), ("flap_present", U32), ("air", U32), ("states", U32), ("boxes", U32), ("cap", U32))
STATE, STATE_WORDS = fields(
    ("flags", U32), ("friction", F32), ("liquid", named("none", "water", "lava"), U32),
    ("connects", named("nothing", "fence", "nether_brick_fence", "thin", "wall")), ("gate", named("none", "x", "z")),
    ("post", named("never", "always", "north", "east", "south", "west")), ("boxes", U32, U32), ("sides", *[U32] * 8), ("posts", U32, U32),
    ("faces", U32))
BOX, BOX_WORDS = fields(("box", *[F32] * 6))
WINDOW, WINDOW_WORDS = fields(("origin", I32, I32, I32), ("sizes", U32, U32, U32), ("lowest", I32), ("highest", I32))

COUNTED = ("states", "boxes")  # counted, and written by nobody
NEEDED = ("sizes", "lowest", "highest")  # never left out: a world of another height would be another record
LIMITS = {"states": (1, 4096), "boxes": (0, 16384), "sizes": (1, 64)}  # those that a file must keep to be a scene


class Part(NamedTuple):
    kind: int
    name: str
    per: int  # words to a block
    words: Callable  # how many a scene has, by the parts in front of it
    holds: str


PARTS = (
    Part(1, "body", BODY_WORDS, lambda s: BODY_WORDS, "body"),
    Part(2, "records", 6 * STATE_WORDS, lambda s: STATE_WORDS * value(s.body, BODY["states"]), "records"),
    Part(3, "boxes", 20 * BOX_WORDS, lambda s: BOX_WORDS * value(s.body, BODY["boxes"]), "boxes"),
    Part(4, "window", WINDOW_WORDS, lambda s: WINDOW_WORDS, "window"),
    Part(5, "cells", PAYLOAD, lambda s: cell_count(s) + column_count(s), "cells, then columns"),
)


def cell_count(scene):
    return math.prod(values(scene.window, WINDOW["sizes"]))


def column_count(scene):
    sx, _, sz = values(scene.window, WINDOW["sizes"])
    return sx * sz


def heights(scene):
    """The world's lowest and highest cell."""
    return value(scene.window, WINDOW["lowest"]), value(scene.window, WINDOW["highest"])


def divided(scene):
    """The states of the cells, and the words of the columns, which follow them in `cells` as they do in a file and in what a host lends."""
    return scene.cells[:cell_count(scene)], scene.cells[cell_count(scene):]


def places(field):
    """The words of each value of a field, as slices."""
    at = field.at
    for kind in field.kinds:
        yield slice(at, at + kind.words)
        at += kind.words


def texts(words, field):
    return [k.show(words[p]) for k, p in zip(field.kinds, places(field))]


def values(words, field):
    """The numbers of a field: floats, signed and unsigned as its kinds are."""
    plain = {F64: f64, F32: lambda w: f32(w[0]), I32: lambda w: int(I32.show(w))}
    return [plain.get(k, joined)(words[p]) for k, p in zip(field.kinds, places(field))]


def value(words, field):
    return values(words, field)[0]


def arrays(scene):
    """What a host hands over of a scene, bit for bit: tables, window and body, in the order in which hosts/boltjuniper.py has them."""
    def of(code, words):
        return array.array(code, struct.pack("<%dI" % len(words), *words))

    age, counts = BODY["age"].at, BODY["states"].at
    window = (of("I", scene.cells), values(scene.window, WINDOW["origin"]), values(scene.window, WINDOW["sizes"]), *heights(scene))
    words = scene.body[age + 2:counts] + scene.body[BODY["cap"].at:]  # the counts between them are not handed over
    body = (of("d", scene.body[:age]), of("I", words), value(scene.body, BODY["age"]))
    return (of("I", scene.records), of("f", scene.boxes)), window, body


# ---- files

def second_of(w):
    """The second check: each of words 0 to 125 times its index and 1."""
    return sum((k + 1) * x for k, x in enumerate(w[:126])) % WORD


def word_126(w, mark):
    return second_of(w) if mark == NEW else 0


def sealed(words):
    """The bytes of a block of these words, 0 to 125, by the rule of its mark."""
    w = words + [word_126(words, words[0])]
    return struct.pack("<128I", *w, sum(w) % WORD)


def packed(scene, mark=NEW):
    out, block = b"", 0
    for part in PARTS:
        words = getattr(scene, part.name)
        for at in range(0, len(words), part.per):
            payload = words[at:at + part.per]
            out += sealed([mark, part.kind, block] + payload + [0] * (PAYLOAD - len(payload)))
            block += 1
    return out


def mark_of(data):
    """The mark by whose rule a file is read: its first. None where that is neither."""
    first = int.from_bytes(data[:4], "little")
    return first if len(data) >= 512 and first in RULES else None


def block_causes(n, w, mark):
    if w[0] not in RULES:
        yield "block %d, word 0: is %08x, the mark is %08x" % (n, w[0], mark)
    elif w[0] != mark:
        yield "block %d, word 0: is %08x, the first block's mark is %08x, and a file has one" % (n, w[0], mark)
    if w[2] != n:
        yield "block %d, word 2: is %d, must be the block's number" % (n, w[2])
    if mark == OLD and w[126]:
        yield "block %d, word 126: is %d, must be 0" % (n, w[126])
    if mark == NEW and w[126] != second_of(w):
        yield "block %d, word 126: is %08x, words 0 to 125, each times its index and 1, sum to %08x" % (n, w[126], second_of(w))
    if w[127] != sum(w[:127]) % WORD:
        yield "block %d, word 127: is %08x, words 0 to 126 sum to %08x" % (n, w[127], sum(w[:127]) % WORD)


def limit_causes(blocks, words, table):
    """Counts and sizes beyond their limits, in the last block that was read."""
    for key, (low, high) in LIMITS.items():
        if key not in table:
            continue
        for place in places(table[key]):
            if not low <= words[place][0] <= high:
                yield "block %d, word %d: %s is %d, must be %d to %d" % (blocks - 1, 3 + place.start, key, words[place][0], low, high)


def parts_of(data):
    """The scene at a file's start, and the blocks behind it: none, or those of a log."""
    if not data or len(data) % 512 or len(data) > 512 * MOST_BLOCKS:
        raise Malformed(["the file has %d bytes, must be 1 to %d blocks of 512" % (len(data), MOST_BLOCKS)])
    blocks = [list(struct.unpack_from("<128I", data, at)) for at in range(0, len(data), 512)]
    mark = mark_of(data) or next((w[0] for w in blocks if w[0] in RULES), NEW)  # where the first is neither, what the others have is of use
    causes = [c for n, w in enumerate(blocks) for c in block_causes(n, w, mark)]
    if causes:
        raise Malformed(causes)
    scene, at = Scene(), 0
    for part in PARTS:
        words, need = [], part.words(scene)
        while len(words) < need:
            if at == len(blocks):
                raise Malformed(["the file ends with block %d, and %d of %d words of kind %d (%s) are not there"
                                 % (at - 1, need - len(words), need, part.kind, part.holds)])
            w, used = blocks[at], min(part.per, need - len(words))
            if w[1] != part.kind:
                raise Malformed(["block %d, word 1: is %d, must be %d (%s)" % (at, w[1], part.kind, part.holds)])
            causes += ["block %d, word %d: is %d, must be 0: it is unused" % (at, k, w[k]) for k in range(3 + used, 126) if w[k]]
            words += w[3:3 + used]
            at += 1
        setattr(scene, part.name, words)
        if part.name in ("body", "window"):
            causes += limit_causes(at, words, BODY if part.name == "body" else WINDOW)
        if part.name == "body" and not value(words, BODY["flap_present"]):
            causes += ["block 0, word %d: is %d, must be 0: no flap is present" % (3 + k, words[k])
                       for k in range(BODY["flap"].at, BODY["flap"].at + 2) if words[k]]
        if causes:
            raise Malformed(causes)
    return scene, blocks[at:]


def unpacked(data):
    scene, behind = parts_of(data)
    if behind:
        raise Malformed(["block %d: %d more than the counts need%s" % (len(data) // 512 - len(behind), len(behind),
                         ", of kind 6: the file is a log, and no scene" if behind[0][1] == LOG_KIND else "")])
    return scene


# ---- texts, written

def asked(kinds):
    what = "name or number" if any(k.what != "number" for k in kinds) else "number"
    return "%d %s" % (len(kinds), what if len(kinds) == 1 else what.replace("number", "numbers").replace("name ", "names "))


def unknown(word, known, of=""):
    near = difflib.get_close_matches(word, known, 1)
    return Mistake("what is `%s`%s?%s" % (word, of, " `%s`, perhaps" % near[0] if near else ""))


def read_values(key, kinds, given):
    if len(given) != len(kinds):
        raise Mistake("%s takes %s, got %d" % (key, asked(kinds), len(given)))
    try:
        return [w for kind, text in zip(kinds, given) for w in kind.read(text)]
    except ValueError as why:
        raise Mistake("%s: %s" % (key, why)) from None


def read_state(given):
    """The words of a state: its keys, each with what follows it up to the next."""
    words = [0] * STATE_WORDS
    if given == ["unregistered"]:
        return words
    words[0] = 1
    known, seen = ["blocks", *STATE], set()
    while given:
        key = given[0]
        if key not in known:
            raise unknown(key, known, " of a state")
        n = next((i for i, t in enumerate(given) if i and t in known), len(given))
        kinds = STATE[key].kinds if key in STATE else ()
        if n > len(kinds) + 1 and not re.match(r"[-+.0-9]", given[len(kinds) + 1]):
            raise unknown(given[len(kinds) + 1], known, " of a state")
        got = read_values(key, kinds, given[1:n])
        if key in seen or {key, *seen} >= {"blocks", "flags"}:
            raise Mistake("%s of a state was given before%s" % (key, "" if key in seen else ", by " + ("flags" if key == "blocks" else "blocks")))
        seen.add(key)
        if key == "blocks":
            words[0] = 3
        else:
            words[STATE[key].at:STATE[key].at + len(got)] = got
        given = given[n:]
    return words


class Text:
    """What the lines of a text came to."""

    def __init__(self):
        self.lines, self.states, self.boxes, self.layers, self.columns, self.rows = {}, [], [], [], None, None
        self.palette = False
        self.parts = [(BODY, [0] * BODY_WORDS), (WINDOW, [0] * WINDOW_WORDS)]

    def line(self, number, key, given):
        rows, self.rows = self.rows, None
        if rows and self.palette and key.rstrip(",") in scenepalette.FIRST:  # `air` too, which elsewhere is the body's air state
            self.row(number, rows, [key] + given)
            self.rows = rows
            return
        for table, words in self.parts:
            if key in table and key not in COUNTED:
                got = read_values(key, table[key].kinds, given)
                self.once(number, key)
                words[table[key].at:table[key].at + len(got)] = got
                return
        if self.palette and key in ("state", *BOX):
            raise Mistake("the palette has the states and boxes: no %s beside it" % key)
        if key == "palette":
            self.take_palette(number, given)
        elif key == "state":
            self.states += read_state(given)
        elif key in BOX:
            self.boxes += read_values(key, BOX[key].kinds, given)
        elif key == "layer" and given and self.palette:
            self.begin(number, key)
            self.whole_layer(number, " ".join(given).split("/"))
        elif key in ("layer", "columns"):
            read_values(key, (), given)
            self.begin(number, key)
        elif rows and (re.match(r"[-+0-9]", key) or key in scenepalette.FIRST):
            self.row(number, rows, [key] + given)
            self.rows = rows
        elif re.fullmatch(r"[-+.0-9]+", key):
            raise Mistake("a row stands below `layer`, `columns` or another row")
        else:
            known = [k for table in (BODY, WINDOW, BOX) for k in table if k not in COUNTED] + ["state", "palette", "layer", "columns"]
            raise unknown(key, known)

    def take_palette(self, number, given):
        if given != ["classroom"]:
            raise Mistake("palette takes the name of one: classroom")
        self.once(number, "palette")
        if self.states or self.boxes:
            raise Mistake("the palette has the states and boxes: none beside it")
        self.palette = True
        self.states, self.boxes = scenepalette.tables()

    def row(self, number, rows, row):
        if self.palette and rows.of == "cell":
            try:
                row = [str(c) for c in scenepalette.read_row(" ".join(row).replace(",", " ").split())]
            except ValueError as why:
                raise Mistake("a row of cells: %s" % why) from None
        kind = CELL if rows.of == "cell" else U32
        rows.rows.append((number, read_values("a row of %ss" % rows.of, [kind] * len(row), row)))

    def whole_layer(self, number, texts):
        """A layer in its own line: rows with / between them, or one cell that stands for all."""
        for text in texts:
            self.row(number, self.rows, text.split())
        rows = self.rows.rows
        if len(rows) == 1 and len(rows[0][1]) == 1:
            self.rows.each.extend(rows.pop()[1])
        self.rows = None

    def left_out(self):
        """What a text with the palette leaves out: a walker, sizes as its layers have them, and a world of just these layers."""
        (body, words), (window, numbers) = self.parts
        for key, *given in map(str.split, scenepalette.WALKER.split("\n")):
            if key not in self.lines:
                got = read_values(key, body[key].kinds, given)
                words[body[key].at:body[key].at + len(got)] = got
        rows = next((layer.rows for layer in self.layers if layer.rows), None)
        low = values(numbers, window["origin"])[1]
        taken = {"lowest": [low], "highest": [low + len(self.layers) - 1]}
        if rows:
            taken["sizes"] = [len(rows[0][1]), len(self.layers), len(rows)]
        for key, given in taken.items():
            if key not in self.lines:
                got = read_values(key, window[key].kinds, list(map(str, given)))
                numbers[window[key].at:window[key].at + len(got)] = got
                self.lines[key] = 0

    def once(self, number, key):
        if key in self.lines:
            raise Mistake("%s was given at line %d" % (key, self.lines[key]))
        self.lines[key] = number

    def begin(self, number, key):
        """Rows follow: a layer's, or the columns'."""
        if key == "layer":
            self.rows = Rows(number, "layer", "cell", [], [])
            self.layers.append(self.rows)
        else:
            self.once(number, key)
            self.rows = self.columns = Rows(number, "block of columns", "column", [], [])

    def cells(self, end):
        """The cells of all layers, then the columns, as many as the sizes want; or the line where there are more or fewer."""
        for key in NEEDED:
            if key not in self.lines:
                raise Mistake("line %d: the text ends without %s" % (end, key))
        sx, sy, sz = values(self.parts[1][1], WINDOW["sizes"])
        cells = []
        for k, layer in enumerate(self.layers):
            if k == sy:
                raise Mistake("line %d: layer %d, sizes want %d" % (layer.line, k + 1, sy))
            cells += layer.words(sx, sz)
        if len(self.layers) != sy:
            raise Mistake("line %d: the text ends with %s, sizes want %d" % (end, plural(len(self.layers), "layer"), sy))
        return cells + (self.columns.words(sx, sz) if self.columns else [1] * (sx * sz))


class Rows(NamedTuple):
    """Rows of numbers, a row for each z: of the cells of a layer, or of the columns."""
    line: int
    what: str
    of: str
    rows: list
    each: list  # or one number that stands for every cell

    def words(self, sx, sz):
        if self.each:
            return self.each * (sx * sz)
        for number, row in self.rows:
            if len(row) != sx:
                raise Mistake("line %d: a row of %s, sizes want %d" % (number, plural(len(row), self.of), sx))
        if len(self.rows) != sz:
            raise Mistake("line %d: a %s of %s, sizes want %d" % (self.line, self.what, plural(len(self.rows), "row"), sz))
        return [w for _, row in self.rows for w in row]


def plural(n, what):
    return "%d %s%s" % (n, what, "" if n == 1 else "s")


def written(text):
    t, lines = Text(), text.rstrip("\n").split("\n")
    for number, line in enumerate(lines, 1):
        key, *given = line.split("#")[0].split() or [""]
        try:
            if key:
                t.line(number, key, given)
        except Mistake as why:
            raise Mistake("line %d: %s" % (number, why)) from None
    if t.palette:
        t.left_out()
    cells, body = t.cells(len(lines)), t.parts[0][1]
    if not t.states:
        raise Mistake("line %d: the text ends without a state" % len(lines))
    if "flap" in t.lines and "flap_present" not in t.lines:
        body[BODY["flap_present"].at] = 1
    body[BODY["states"].at], body[BODY["boxes"].at] = len(t.states) // STATE_WORDS, len(t.boxes) // BOX_WORDS
    return Scene(body=body, records=t.states, boxes=t.boxes, window=t.parts[1][1], cells=cells)


# ---- texts, printed

def pieces(words, size):
    return [words[at:at + size] for at in range(0, len(words), size)]


def state_text(words):
    if not any(words):
        return "state unregistered"
    out = ["state"] + (["blocks"] if words[0] == 3 else [])
    for key, field in STATE.items():
        n = sum(k.words for k in field.kinds)
        if any(words[field.at:field.at + n]) if key != "flags" else words[0] not in (1, 3):
            out += [key] + texts(words, field)
    return " ".join(out)


def printed(scene):
    present = value(scene.body, BODY["flap_present"])
    left_out = {*COUNTED} | (set() if present else {"flap"}) | (set() if present > 1 else {"flap_present"})
    out = [" ".join([key] + texts(scene.body, field)) for key, field in BODY.items() if key not in left_out]
    palette = (scene.records, scene.boxes) == scenepalette.tables()
    if palette:
        out += ["palette classroom"]
    else:
        out += ["%s  # %d" % (state_text(w), k) for k, w in enumerate(pieces(scene.records, STATE_WORDS))]
        out += [" ".join(["box"] + texts(w, BOX["box"])) for w in pieces(scene.boxes, BOX_WORDS)]
    out += [" ".join([key] + texts(scene.window, field)) for key, field in WINDOW.items()]
    cells, columns = divided(scene)
    (_, oy, _), (sx, _, sz) = values(scene.window, WINDOW["origin"]), values(scene.window, WINDOW["sizes"])
    for y, layer in enumerate(pieces(cells, sx * sz), oy):
        out += ["layer  # y %d%s" % (y, beyond(scene, y))] + (named_rows(layer, sx) if palette else row_texts(layer, sx))
    out += ["columns  # 1 is loaded, 0 is not"] + row_texts(columns, sx)
    return "\n".join(out) + "\n"


def row_texts(words, sx):
    return ["  " + " ".join(U32.show([w]) for w in row) for row in pieces(words, sx)]


def named_rows(words, sx):
    return ["  " + ", ".join(map(scenepalette.name_of, row)) for row in pieces(words, sx)]


def beyond(scene, y):
    """What is said of a layer that is not of the world, since nothing that stands there is read."""
    lowest, highest = heights(scene)
    return ", below the world: air" if y < lowest else ", above the world: air" if y > highest else ""

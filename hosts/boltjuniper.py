"""Boltjuniper for hosts in Python: what hosts/boltjuniper.h declares, over the shared library that hosts/build makes. Standard library alone.

    import boltjuniper as b
    tables = b.Tables(records, shapes)                          # 20 words to a state, six numbers to a box
    window = b.Window(cells, (0, -1, 0), (2, 4, 2), -64, 319)   # its cells and columns, origin and sizes, the world's lowest and highest y
    b.step(tables, window, b.Body(numbers, words, age))         # Tick(feet=.., ground=True, liquid='none', support='air', ..), or raises Refused
    b.step_falling(tables, window, body, b.Fall())              # the Tick, and the fall record after it
    b.steps(tables, window, bodies)                             # a list: for each body its Tick, or its Refused as a value
    b.midnight_capped(tables, *b.window_rows(windows), *b.body_rows(bodies, named, falls))     # thousands of bodies over up to 16 windows, in one call
    b.midnight_two(tables, b.Party(*b.window_rows(..), *b.body_rows(..)), b.Party(..))  # two parties over one table: for each its rows, or its Refused
    log = b.write_log(b.write_scene(tables, window, body), [None, (3, 1, 2, 0), None])  # a minute: a tick, a cell that is set, a tick
    b.minute(tables, window, body, log)                         # Minute(lines=[..], feet=.., fall=.., ticks=2, age=2, ..)

An array of the type that is asked for (numpy's uint32, float32 and float64; array.array's I, f and d) is lent as it is, without a copy, and is only
read; it must not be changed by another thread while the call runs. A list or a tuple of numbers is copied. Another type of array is a TypeError and
one with gaps a ValueError: nothing is converted in silence."""
import array
import ctypes
import os
from typing import NamedTuple

LIBRARY = os.path.join(os.path.dirname(os.path.dirname(os.path.abspath(__file__))), "target", "hosts", "libboltjuniper.so")

# what each refusal means: the sentences of docs/REFUSALS.md
SENTENCES = {
    1: "The tables of blocks break a rule: a count, a limit, a state that leads to another family, a face mask that does not fit its shape.",
    2: "The window or the world's heights break a limit, the lowest cell is over the highest, a column's word is above 1, or cells and columns are not "
       "as many as the sizes say.",
    3: "A number of the body or of the rules is not finite or beyond its limit, an enum number is unknown, a yes or no is above 1, the air state has "
       "no registered record, or the cap is above 512. In a direct call also: not 19 numbers and 7 words, or a number of a fall record that is negative, not finite or "
       "above 2^30; in the midnight run, a row that is not there whole.",
    4: "A position or velocity (in direct calls also a box or a delta) is not finite or beyond its limit. In a direct call also: not nine "
       "numbers to a mover, or boxes that are not six numbers each.",
    5: "The rules ask for a cell that the window does not hold.",
    6: "More boxes than the cap lie in the way.",
    7: "The flow test meets a state that is not registered. The original program would have ended there.",
    8: "The file is no scene: a mark, number, check, kind, count or unused word is wrong, both marks are in it, or blocks are missing or left over.",
    10: "In the midnight run: the body names no window.",
    11: "In a direct call: the memory lent for the answer is too short; or, in a call over a summary, there are not as many words behind cells and "
        "columns as the window has groups.",
    12: "In a direct call that writes a scene or a log: it has more than 128 blocks, those of the scene counted in.",
    13: "In a call over a summary, and in the midnight run for a body of its air state: the word of a group disagrees with its cells.",
    14: "In the midnight run: more than 16 windows, or more than 4,096 bodies (2,048 of each of two parties).",
}


class Refused(Exception):
    """A record that could not be judged: its `number`, and what that means. It never accuses a body."""

    def __init__(self, number):
        self.number, self.sentence = number, SENTENCES.get(number, "docs/REFUSALS.md says what it means.")
        super().__init__("refused %d: %s" % (number, self.sentence))

    def __eq__(self, other):
        return isinstance(other, Refused) and self.number == other.number

    def __hash__(self):
        return hash(self.number)


class NotBuilt(Exception):
    """The shared library, or the function of it that was asked for, is not there."""


class Tables(NamedTuple):
    records: object
    shapes: object


class Window(NamedTuple):
    """The state of each cell at ((y * sizes z) + z) * sizes x + x, counted from the origin, then a word for each column at z * sizes x + x, 1 loaded
    or 0 not, all in `cells`; and the world's lowest and highest y. A window of other than so many words is refused with 2."""
    cells: object
    origin: tuple
    sizes: tuple
    lowest: int
    highest: int


class Body(NamedTuple):
    """A body in the order of a scene file's first block, as hosts/boltjuniper.h has it: 19 numbers, 7 words, and its age in ticks. The last
    word is the cap: who relies on 6 at the 129th box names OLDER_CAP."""
    numbers: object
    words: object
    age: int = 0


class Mover(NamedTuple):
    """A box, least x y z and greatest x y z, with its delta, the step height, whether the body was on the ground, and how many boxes it may meet:
    1 to 512, and 0 stands for 512."""
    aabb: tuple
    delta: tuple
    step: float = 0.0
    ground: bool = False
    cap: int = 0


CASES = ("not asked", "sampled", "air", "unloaded", "unregistered")


class Tick(NamedTuple):
    """`support` is one of CASES: where the body's friction comes from, or why there is none; hosts/boltjuniper.h says when none is asked for.
    `friction` is the sampled number, None where none was sampled."""
    feet: tuple
    velocity: tuple
    ground: bool
    liquid: str
    support: str = "not asked"
    friction: float = None


class Fall(NamedTuple):
    """A fall record: how far a body has fallen since the last reset, and how far it fell to its last landing. Fall() is a fresh one."""
    sum: float = 0.0
    landed: float = 0.0


class Moved(NamedTuple):
    """The box after a move, the way that it went, and whether it came to stand on the ground."""
    aabb: tuple
    moved: tuple
    ground: bool


class Minute(NamedTuple):
    """A body after so many ticks of a log: its feet after each (`lines`), its motion, fall record and age, and the window's words, with the summary behind them.
    `refused` is what ended the run, None where the log came to its end."""
    lines: list
    feet: tuple
    velocity: tuple
    ground: bool
    fall: Fall
    ticks: int
    age: int
    cells: object
    refused: object = None


# ---- the library

SLICE = [ctypes.c_void_p, ctypes.c_size_t]
TABLES, WINDOW, AIR = SLICE * 2, SLICE + [ctypes.c_int32] * 3 + [ctypes.c_uint32] * 3 + [ctypes.c_int32] * 2, [ctypes.c_uint32]
BODY, STEP = SLICE * 2 + [ctypes.c_uint64], [ctypes.c_double, ctypes.c_uint32, ctypes.c_uint32]
DECLARED = {
    "check_tables": TABLES,
    "step": TABLES + WINDOW + BODY + SLICE,
    "step_checked": TABLES + WINDOW + BODY + SLICE,
    "step_falling": TABLES + WINDOW + BODY + [ctypes.c_double] * 2 + SLICE,
    "build_summary": TABLES + WINDOW + AIR,
    "set_block": TABLES + WINDOW + AIR + [ctypes.c_int32] * 3 + [ctypes.c_uint32],
    "check_summary": TABLES + WINDOW + AIR,
    "move_summed": TABLES + WINDOW + AIR + SLICE + STEP + SLICE,
    "step_summed": TABLES + WINDOW + BODY + SLICE,
    "step_falling_summed": TABLES + WINDOW + BODY + [ctypes.c_double] * 2 + SLICE,
    "midnight": TABLES + SLICE + [ctypes.c_uint32] + SLICE * 3 + [ctypes.c_uint32] + SLICE,
    "midnight_capped": TABLES + SLICE + [ctypes.c_uint32] + SLICE * 3 + [ctypes.c_uint32] + SLICE,
    "midnight_two": TABLES + (SLICE + [ctypes.c_uint32] + SLICE * 3 + [ctypes.c_uint32]) * 2 + SLICE,
    "move": TABLES + WINDOW + AIR + SLICE + STEP + SLICE,
    "move_over_list": SLICE * 2 + STEP + SLICE,
    "collected": TABLES + WINDOW + AIR + SLICE + STEP + SLICE,
    "tick": SLICE * 2,
    "write_scene": TABLES + WINDOW + BODY + SLICE,
    "write_log": SLICE * 2,
    "minute": TABLES + WINDOW + BODY + SLICE * 3,
    "palette_records": SLICE,
    "palette_boxes": SLICE,
}
WIDE = ("write_scene", "write_log", "midnight_two")  # what returns 64 bits
SCENE_BYTES, BLOCK = 65536, 512  # 128 blocks: every scene has room in it, and every log
MOST_EVENTS = 3719  # of a log
PALETTE = (("palette_records", "I", 4240), ("palette_boxes", "f", 3948))  # of the classroom palette: the words, and the numbers of its boxes

_loaded = {}


def load(path=None):
    """Loads the library at `path`; without it, at the first call, the one that hosts/build made or that BOLTJUNIPER_LIBRARY names."""
    path = path or os.environ.get("BOLTJUNIPER_LIBRARY", LIBRARY)
    try:
        library = ctypes.CDLL(path)
    except OSError as why:
        raise NotBuilt("%s; hosts/build makes it" % why) from None
    _loaded.clear()
    for name, arguments in DECLARED.items():
        function = getattr(library, "boltjuniper_" + name, None)
        if function is not None:
            function.argtypes, function.restype = arguments, ctypes.c_uint64 if name in WIDE else ctypes.c_uint32
            _loaded[name] = function


def has(name):
    """Whether the library has a function: one that was built of older code may lack some."""
    if not _loaded:
        load()
    return name in _loaded


def _function(name):
    if not has(name):
        raise NotBuilt("the library has no boltjuniper_%s; hosts/build makes it anew" % name)
    return _loaded[name]


# ---- lent memory

class _Buffer(ctypes.Structure):  # CPython's Py_buffer
    _fields_ = [("buf", ctypes.c_void_p), ("obj", ctypes.py_object), ("len", ctypes.c_ssize_t), ("itemsize", ctypes.c_ssize_t),
                ("readonly", ctypes.c_int), ("ndim", ctypes.c_int), ("format", ctypes.c_char_p), ("shape", ctypes.c_void_p),
                ("strides", ctypes.c_void_p), ("suboffsets", ctypes.c_void_p), ("internal", ctypes.c_void_p)]


def _address(view):
    b = _Buffer()
    ctypes.pythonapi.PyObject_GetBuffer(ctypes.py_object(view), ctypes.byref(b), 0)
    address = b.buf
    ctypes.pythonapi.PyBuffer_Release(ctypes.byref(b))
    return address


class _Lent:
    """The arguments of a call, with the memory that they point to."""

    def __init__(self):
        self.arguments, self.kept = [], []

    def slice(self, what, x, code):
        """Adds pointer and number of elements of an array of this type: f, d, I or B, as the module `array` has them."""
        try:
            view = memoryview(x)
        except TypeError:
            view = memoryview(array.array(code, x))
        size = array.array(code).itemsize
        if view.itemsize != size or view.format.lstrip("@=<") not in (code, "c" if code == "B" else code):
            raise TypeError("%s: an array of type %s (%d bytes each) is asked for, and this one has type %s" % (what, code, size, view.format))
        if not view.c_contiguous:
            raise ValueError("%s: the array has gaps; lend a copy in one piece" % what)
        n = view.nbytes // size
        if n == 0 or _address(view) % size:  # it has no place of its own, or one that is not aligned
            view = memoryview(array.array(code, view.tobytes() or bytes(size)))
        self.arguments += [_address(view), n]
        self.kept.append(view)
        return self

    def tables(self, tables):
        return self.slice("records", tables.records, "I").slice("shapes", tables.shapes, "f")

    def window(self, window):
        self.slice("cells", window.cells, "I")
        self.arguments += [*_whole(window.origin, -2**31, 2**31), *_whole(window.sizes, 0, 2**32)]
        self.arguments += _whole([window.lowest, window.highest], -2**31, 2**31)
        return self

    def air(self, state):
        self.arguments += _whole([state], 0, 2**32)
        return self

    def body(self, body):
        self.slice("numbers", body.numbers, "d").slice("words", body.words, "I")
        self.arguments += _whole([body.age], 0, 2**64)
        return self

    def fall(self, fall):
        self.arguments += [fall.sum, fall.landed]
        return self

    def swept(self, mover):
        self.slice("mover", [*mover.aabb, *mover.delta], "d")
        self.arguments.append(mover.step)
        return self

    def mover(self, mover):
        self.swept(mover)
        self.arguments += _whole([mover.ground, mover.cap], 0, 2**32)
        return self

    def answer(self, name, numbers, *last):
        """Calls a function that writes so many numbers: these, or Refused as a value. `last` are arguments that change from call to call."""
        out = (ctypes.c_double * numbers)()
        refusal = _function(name)(*self.arguments, *last, *([ctypes.addressof(out), numbers] if numbers else []))
        return Refused(refusal) if refusal else list(out)


def _whole(numbers, low, high):
    """ctypes cuts a number that is too large for its type; we don't."""
    for n in numbers:
        if not low <= n < high:
            raise ValueError("%d is beyond %d to %d" % (n, low, high - 1))
    return [int(n) for n in numbers]


def _tick(out):
    if isinstance(out, Refused):
        return out
    case = CASES[int(out[8])]
    return Tick(tuple(out[:3]), tuple(out[3:6]), out[6] != 0, ("none", "water", "lava")[int(out[7])], case, out[9] if case == "sampled" else None)


def _fallen(out):
    return out if isinstance(out, Refused) else (_tick(out[:8] + out[10:]), Fall(*out[8:10]))


def _moved(out):
    return out if isinstance(out, Refused) else Moved(tuple(out[:6]), tuple(out[6:9]), out[9] != 0)


def _judged(answer):
    if isinstance(answer, Refused):
        raise answer
    return answer


# ---- one call, one answer: a refusal is raised

def check_tables(tables):
    """Refused by 1 where tables break a rule."""
    _judged(_Lent().tables(tables).answer("check_tables", 0))


def step(tables, window, body):
    """One tick of a body."""
    return _judged(_tick(_Lent().tables(tables).window(window).body(body).answer("step", 10)))


def step_checked(tables, window, body):
    """The same for tables and a window that were checked before: it looks for neither 1 nor 2, and is as safe. Its motion is finite where the tables
    pass their check; of others a friction that is a NaN comes out as a velocity that is one."""
    return _judged(_tick(_Lent().tables(tables).window(window).body(body).answer("step_checked", 10)))


def step_falling(tables, window, body, fall=Fall()):
    """One tick of a body with its fall record: the Tick, and the record after it. Where it is refused, the record that was handed in still holds."""
    return _judged(_fallen(_Lent().tables(tables).window(window).body(body).fall(fall).answer("step_falling", 12)))


def with_summary(tables, window, air):
    """The window with its summary, for this air state, behind its cells and columns. It goes to the calls below, and to step_checked, whose moves then
    pass over what is empty."""
    groups = [(size + 3) // 4 for size in window.sizes]
    words = array.array("I", [*window.cells, *[0] * (groups[0] * groups[1] * groups[2])])
    window = window._replace(cells=words)
    _judged(_Lent().tables(tables).window(window).air(air).answer("build_summary", 0))
    return window


def set_block(tables, window, air, cell, state):
    """One cell of a window with a summary becomes this state, and the word of its group is mended, in the array itself."""
    if memoryview(window.cells).readonly:
        raise TypeError("cells: an array is asked for that may be written to")
    lent = _Lent().tables(tables).window(window).air(air)
    lent.arguments += [*_whole(cell, -2**31, 2**31), *_whole([state], 0, 2**32)]
    _judged(lent.answer("set_block", 0))


def check_summary(tables, window, air):
    """Refused by 1, 2, 3, 11 or 13."""
    _judged(_Lent().tables(tables).window(window).air(air).answer("check_summary", 0))


def step_summed(tables, window, body):
    """One tick of a body over a window with a summary of its air state: 11 and 13 after 4."""
    return _judged(_tick(_Lent().tables(tables).window(window).body(body).answer("step_summed", 10)))


def step_falling_summed(tables, window, body, fall=Fall()):
    """The same with its fall record."""
    return _judged(_fallen(_Lent().tables(tables).window(window).body(body).fall(fall).answer("step_falling_summed", 12)))


def move_summed(tables, window, air, mover):
    """The move through a window with a summary."""
    return _judged(_moved(_Lent().tables(tables).window(window).air(air).mover(mover).answer("move_summed", 10)))


def tick(file):
    """The tick of a scene file, given as bytes."""
    return _judged(_tick(_Lent().slice("file", file, "B").answer("tick", 10)))


def move(tables, window, air, mover):
    """The move of a box through a window, whose sky and void are of the air state."""
    return _judged(_moved(_Lent().tables(tables).window(window).air(air).mover(mover).answer("move", 10)))


def collected(tables, window, air, mover):
    """The boxes that a move through a window collects, each least x y z and greatest x y z, in their order."""
    lent = _Lent().tables(tables).window(window).air(air).swept(mover)
    lent.arguments += _whole([mover.cap], 0, 2**32)

    def count_and_box(k):
        return _judged(lent.answer("collected", 7, k))

    return [tuple(count_and_box(k)[1:]) for k in range(int(count_and_box(0)[0]))]


def move_over_list(boxes, mover):
    """The move of a box over boxes of the host's own, six numbers to a box."""
    return _judged(_moved(_Lent().slice("boxes", boxes, "d").mover(mover).answer("move_over_list", 10)))


def write_scene(tables, window, body):
    """The scene file of a body, its tables and its window, as bytes, of the new mark: what `tick` reads."""
    lent, out = _Lent().tables(tables).window(window).body(body), (ctypes.c_uint8 * SCENE_BYTES)()
    n = _function("write_scene")(*lent.arguments, ctypes.addressof(out), SCENE_BYTES)
    return bytes(out[:n]) if n >= BLOCK else _judged(Refused(n))


def write_log(scene, events):
    """A scene file with the log of a minute behind it, as bytes: `scene` is what write_scene made, and an event None, a tick, or (x, y, z, state), a cell that
    was set, counted from the window's origin."""
    out = (ctypes.c_uint8 * SCENE_BYTES)(*scene)
    words = [w for e in events for w in ((1, 0, 0, 0) if e is None else (2, e[0] | e[1] << 8 | e[2] << 16, e[3], 0))]
    lent = _Lent().slice("events", words, "I")
    n = _function("write_log")(*lent.arguments, ctypes.addressof(out), SCENE_BYTES)
    return bytes(out[:n]) if n >= BLOCK else _judged(Refused(n))


def minute(tables, window, body, log):
    """A minute of a body: run through the events of a log, from a fresh fall record on. The window's words are copied. A refusal before the first tick is
    raised."""
    groups = [(size + 3) // 4 for size in window.sizes]
    words = array.array("I", [*window.cells, *[0] * (groups[0] * groups[1] * groups[2])])
    feet, out = (ctypes.c_double * (3 * MOST_EVENTS))(), (ctypes.c_double * 12)(*[-1.0] * 12)
    lent = _Lent().tables(tables).window(window._replace(cells=words)).body(body).slice("log", log, "B")
    refusal = _function("minute")(*lent.arguments, ctypes.addressof(feet), len(feet), ctypes.addressof(out), len(out))
    if refusal and out[9] < 0:
        raise Refused(refusal)
    lines = [tuple(feet[3 * k:3 * k + 3]) for k in range(int(out[9]))]
    return Minute(lines, tuple(out[:3]), tuple(out[3:6]), out[6] != 0, Fall(*out[7:9]), int(out[9]), int(out[10]) + (int(out[11]) << 32), words,
                  Refused(refusal) if refusal else None)


# ---- the classroom palette

def palette():
    """The tables of the classroom palette, whose states hosts/boltjuniper.h tells."""
    return Tables(*(filled(name, array.array(code, bytes(4 * n))) for name, code, n in PALETTE))


def filled(name, out):
    """A table of the palette's written into an array of its type, which it returns; refused by 11 where there is not the room."""
    refusal = _function(name)(*out.buffer_info())
    if refusal:
        raise Refused(refusal)
    return out


# ---- many: a refusal is a value among the answers

def steps(tables, window, bodies):
    """One tick of each body over one window: a list of Tick or Refused. Tables and window are checked once, by the first body's step."""
    lent, answers = _Lent().tables(tables).window(window), []
    for body in bodies:
        if answers and answers[0] in (Refused(1), Refused(2)):
            answers.append(answers[0])
            continue
        one = _Lent()
        one.arguments = list(lent.arguments)
        answers.append(_tick(one.body(body).answer("step_checked" if answers else "step", 10)))
    return answers


def ticks(files):
    """The tick of each scene file: a list of Tick or Refused."""
    return [_tick(_Lent().slice("file", file, "B").answer("tick", 10)) for file in files]


# ---- the midnight run: rows in, rows out

WINDOW_WORDS, BODY_NUMBERS, CAPPED_WORDS, BODY_WORDS = 10, 21, 10, 9
OLDER_CAP = 128  # of a row of nine words
# an answer: the names of its numbers, and how many there are of each
ANSWER = (("refusal", 1), ("feet", 3), ("velocity", 3), ("ground", 1), ("liquid", 1), ("sum", 1), ("landed", 1), ("case", 1),
          ("friction", 1))
ANSWER_NUMBERS = sum(count for _, count in ANSWER)


def window_rows(windows):
    """The rows of windows, and the words of all of them, each window's behind the one's before: what `midnight` takes. It copies the words."""
    rows, words = array.array("I"), array.array("I")
    for window in windows:
        own = array.array("I", window.cells)
        signed = [n % 2**32 for n in _whole([*window.origin, window.lowest, window.highest], -2**31, 2**31)]
        rows.extend([*signed[:3], *_whole(window.sizes, 0, 2**32), *signed[3:], len(words), len(own)])
        words.extend(own)
    return rows, words


def body_rows(bodies, named, falls=None):
    """The numbers and the words of bodies in rows, each with the number of its window and its fall record, a fresh one where none is given."""
    numbers, words = array.array("d"), array.array("I")
    for k, body in enumerate(bodies):
        age, = _whole([body.age], 0, 2**64)
        numbers.extend([*body.numbers, *(falls[k] if falls else Fall())])
        words.extend([named[k], age % 2**32, age >> 32, *body.words])
    return numbers, words


def midnight_capped(tables, windows, cells, numbers, words, out=None):
    """One tick of each body, over rows as hosts/boltjuniper.h has them: ten words to a window over `cells`, 21 numbers and ten words to a body; as many
    windows and bodies as there are words for. With numpy the answer is one structured array with the fields of ANSWER, a row for each body; without it,
    a list of rows. `answered` has a row as a Tick or a Refused. Refused by 1, 14 or 11 is raised. `out`, an array of float64 with room for
    13 numbers a body, is written to where it is given, and what lies beyond the last row stays.

    From several threads: the call lets other threads run meanwhile. Lend each the same tables, windows and cells, and its own part of numbers, words and
    out, as numbers[a * 21:b * 21]."""
    return _run("midnight_capped", CAPPED_WORDS, tables, windows, cells, numbers, words, out)


def midnight(tables, windows, cells, numbers, words, out=None):
    """The same for older callers, whose rows have nine words to a body: the cap is 128."""
    return _run("midnight", BODY_WORDS, tables, windows, cells, numbers, words, out)


def _run(name, width, tables, windows, cells, numbers, words, out):
    lent = _Lent().tables(tables)
    bodies = _lend_rows(lent, width, windows, cells, numbers, words)
    mine = _lend_out(lent, out, bodies)
    refusal = _function(name)(*lent.arguments)
    if refusal:
        raise Refused(refusal)
    return _rows(mine[:ANSWER_NUMBERS * bodies], bodies)


class Party(NamedTuple):
    """One of two parties: its own windows in rows over its own cells, and its own bodies in rows, which name those windows alone."""
    windows: object
    cells: object
    numbers: object
    words: object


def midnight_two(tables, first, second, out=None):
    """The midnight run of two parties over one table: for each what `midnight_capped` answers, or its Refused as a value, with its half as it was. Each
    has half of `out`, rounded down; without it each half has room for the more bodies of the two. Nothing of the other party alters this one's part."""
    lent = _Lent().tables(tables)
    bodies = [_lend_rows(lent, CAPPED_WORDS, *party) for party in (first, second)]
    mine = _lend_out(lent, out, 2 * max(bodies))
    told, h = _function("midnight_two")(*lent.arguments), len(mine) // 2
    return tuple(Refused(refusal) if refusal else _rows(mine[at:at + ANSWER_NUMBERS * count], count)
                 for refusal, at, count in zip((told % 2**32, told >> 32), (0, h), bodies))


def _lend_rows(lent, width, windows, cells, numbers, words):
    """Lends windows and bodies in rows, and returns how many bodies there are."""
    lent.slice("windows", windows, "I")
    lent.arguments.append(lent.arguments[-1] // WINDOW_WORDS)
    lent.slice("cells", cells, "I").slice("numbers", numbers, "d").slice("words", words, "I")
    lent.arguments.append(lent.arguments[-1] // width)
    return lent.arguments[-1]


def _lend_out(lent, out, bodies):
    """Lends `out`, or a new buffer for so many answers, and returns its numbers."""
    mine = out if out is not None else array.array("d", bytes(8 * ANSWER_NUMBERS * bodies))
    if memoryview(mine).readonly:
        raise ValueError("out: the array may only be read")
    lent.slice("out", mine, "d")
    if lent.arguments[-1] and lent.arguments[-2] != _address(memoryview(mine)):
        raise ValueError("out: the array is not aligned")
    return memoryview(mine).cast("B").cast("d")


def _rows(numbers, bodies):
    try:
        import numpy
    except ImportError:
        return [tuple(numbers[k:k + ANSWER_NUMBERS]) for k in range(0, len(numbers), ANSWER_NUMBERS)]
    row = numpy.dtype([(name, "f8") if count == 1 else (name, "f8", (count,)) for name, count in ANSWER])
    return numpy.frombuffer(numbers, dtype=row) if bodies else numpy.zeros(0, dtype=row)


def answered(row):
    """A row of the midnight run as its Tick, or its Refused as a value; and its fall record, as it was where the body is refused."""
    refusal, *out = (float(n) for part in row for n in (part if hasattr(part, "__len__") else (part,)))
    tick, fall = _fallen(out)
    return Refused(int(refusal)) if refusal else tick, fall

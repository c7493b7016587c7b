#!/usr/bin/env python3
"""Holds the functions of hosts/boltjuniper.py to the stored answers of the original Rust (docs/VECTORS.md). Run by hosts/run."""
import array
import os
import random
import struct
import sys
import threading

sys.dont_write_bytecode = True
HERE = os.path.dirname(os.path.abspath(__file__))
sys.path.insert(0, os.path.join(HERE, "..", "tools"))
import boltjuniper as b
import scenefile
import scenelog
import scenepalette

try:
    import numpy
except ImportError:
    numpy = None
os.chdir(os.path.join(HERE, ".."))


class Count:
    def __init__(self, what):
        self.what, self.agree, self.differ = what, 0, 0

    def add(self, name, ours, theirs):
        self.agree += ours == theirs
        self.differ += ours != theirs
        if ours != theirs:
            print("%s, %s: %s, and the vectors have %s" % (self.what, name, ours, theirs))

    def tell(self):
        print("Python, %s: %d agree, %d differ" % (self.what, self.agree, self.differ))
        return self.differ == 0 and self.agree > 0


def bits(numbers):
    return "".join(" " + struct.pack(">d", x).hex() for x in numbers)


def number(text):
    return struct.unpack(">d", bytes.fromhex(text))[0]


def asked(call, *arguments):
    """What a call returns, or raises where it is refused."""
    try:
        return call(*arguments)
    except b.Refused as refused:
        return refused


def tick_text(t, theirs):
    """As the stored line has it: the original's answers have the case of its sample for some scenes and not for others."""
    if isinstance(t, b.Refused):
        return "refused %d" % t.number
    case = "; friction %s%s" % (t.support, "" if t.friction is None else bits([t.friction])) if "; friction" in theirs else ""
    return "feet%s; velocity%s; ground %d; liquid %s%s" % (bits(t.feet), bits(t.velocity), t.ground, t.liquid, case)


def move_text(mover, m):
    """A refused move returns its box, moved zero, ground false."""
    refusal = "refused %d " % m.number if isinstance(m, b.Refused) else ""
    m = b.Moved(mover.aabb, (0.0, 0.0, 0.0), False) if refusal else m
    return "%sbox%s moved%s ground %d" % (refusal, bits(m.aabb), bits(m.moved), m.ground)


def parts(scene, as_array=lambda a: a):
    """A scene as the calls take it, each array as this makes it."""
    (records, shapes), (cells, *numbered), (numbers, words, age) = scenefile.arrays(scene)
    return (b.Tables(as_array(records), as_array(shapes)), b.Window(as_array(cells), *numbered), b.Body(as_array(numbers), as_array(words), age))


def as_numpy(a):
    """The same array as one of numpy's that may only be read."""
    return numpy.frombuffer(a.tobytes(), dtype={"I": numpy.uint32, "f": numpy.float32, "d": numpy.float64}[a.typecode])


def renewed(data):
    """A file under the new mark with its two checks, as a writer makes it of a scene of either mark."""
    return b"".join(scenefile.sealed([scenefile.NEW, *struct.unpack_from("<125I", data, at + 4)]) for at in range(0, len(data), 512))


COUNTS = {name: Count(name) for name in ("tick", "ticks", "step", "step_checked", "steps", "check_tables", "move", "move_over_list", "collected",
                                         "write_scene", "write_scene beside tools/scene",
                                         "move over what it collects", "step of numpy's arrays", "heights, columns and air", "two ticks at a door",
                                         "arrays as they are", "step_falling", "fall records", "midnight", "midnight of older rows", "midnight's refusals",
                                         "midnight_two", "classroom palette", "caps", "summaries", "write_log beside tools/scene", "minute")}


def one_scene(name, theirs):
    with open("crates/replay/data/%s.scn" % name, "rb") as f:
        data = f.read()
    COUNTS["tick"].add(name, tick_text(asked(b.tick, data), theirs), theirs)
    COUNTS["ticks"].add(name, [tick_text(t, theirs) for t in b.ticks([data, b"", data])], [theirs, "refused 8", theirs])
    if theirs == "refused 8":
        return
    scene = scenefile.unpacked(data)
    tables, window, body = parts(scene)
    COUNTS["step"].add(name, tick_text(asked(b.step, tables, window, body), theirs), theirs)
    fallen = asked(b.step_falling, tables, window, body)
    COUNTS["step_falling"].add(name, tick_text(fallen if isinstance(fallen, b.Refused) else fallen[0], theirs), theirs)
    one_midnight(name, tables, window, body, theirs)
    one_older(name, tables, window, body)
    summaries(name, tables, window, body)
    COUNTS["steps"].add(name, [tick_text(t, theirs) for t in b.steps(tables, window, [body] * 3)], [theirs] * 3)
    COUNTS["check_tables"].add(name, asked(b.check_tables, tables), b.Refused(1) if theirs == "refused 1" else None)
    early = theirs in ("refused 1", "refused 2")
    written = asked(b.write_scene, tables, window, body)
    first = early or theirs in ("refused 3", "refused 4")
    COUNTS["write_scene"].add(name, tick_text(written, theirs) if first else written == renewed(data), theirs if first else True)
    if not first:
        COUNTS["write_scene beside tools/scene"].add(name, written == scenefile.packed(scene), True)
        minutes(name, scene, written)
    if not early:
        COUNTS["step_checked"].add(name, tick_text(asked(b.step_checked, tables, window, body), theirs), theirs)
    # A move through the window meets 1 and 2 as the step does; its step height is then 3.
    refused = asked(b.move, tables, window, body.words[5], b.Mover((0.0,) * 6, (0.0,) * 3, 5.0))
    COUNTS["move"].add(name, "refused %d" % refused.number, theirs if early else "refused 3")
    over_collected(name, tables, window, body)
    if numpy:
        COUNTS["step of numpy's arrays"].add(name, tick_text(asked(b.step, *parts(scene, as_numpy)), theirs), theirs)


def one_midnight(name, tables, window, body, theirs):
    """The scene's body three times, the second time in a window that is not there: the others' answers are as alone, and a refusal hands back."""
    rows = asked(b.midnight_capped, tables, *b.window_rows([window]), *b.body_rows([body] * 3, [0, 1, 0]))
    if theirs == "refused 1":
        COUNTS["midnight"].add(name, rows, b.Refused(1))
        return
    # the first party has all three, the second the last two: both have the rows of the call alone
    pair = b.midnight_two(tables, *(b.Party(*b.window_rows([window]), *b.body_rows([body] * len(named), named)) for named in ([0, 1, 0], [1, 0])))
    COUNTS["midnight_two"].add(name, [bits(numbers_in(row)) for part in pair for row in part], [bits(numbers_in(rows[k])) for k in (0, 1, 2, 1, 2)])
    answers = [b.answered(row) for row in rows]
    COUNTS["midnight"].add(name, [tick_text(tick, theirs) for tick, _ in answers], [theirs, "refused 10", theirs])
    given = bits([*body.numbers[:6], float(body.words[0]), 0.0, 0.0, 0.0, 0.0, 0.0])
    for row, (tick, _) in zip(rows, answers):
        if isinstance(tick, b.Refused):
            COUNTS["midnight"].add(name, bits(numbers_in(row)[1:]), given)


def one_older(name, tables, window, body):
    """An older caller's row, without the cap: its answer is that of the step under 128."""
    numbers, words = b.body_rows([body], [0])
    rows = asked(b.midnight, tables, *b.window_rows([window]), numbers, words[:9])
    alone = asked(b.step, tables, window, body._replace(words=[*body.words[:6], b.OLDER_CAP]))
    COUNTS["midnight of older rows"].add(name, rows if isinstance(rows, b.Refused) else b.answered(rows[0])[0], alone)


def numbers_in(row):
    return [float(n) for part in row for n in (part if hasattr(part, "__len__") else (part,))]


def over_collected(name, tables, window, body):
    """A move through a window is the move over the boxes that it collects: here the body's own box, by its velocity. Only a block beyond the limit on
    boxes can be met in a window and not handed in."""
    (x, y, z), delta, (width, height), step = body.numbers[:3], body.numbers[3:6], body.numbers[6:8], body.numbers[13]
    mover = b.Mover((x - width / 2, y, z - width / 2, x + width / 2, y + height, z + width / 2), tuple(delta), step, body.words[0], body.words[6])
    air = body.words[5]
    boxes = asked(b.collected, tables, window, air, mover)
    over = boxes if isinstance(boxes, b.Refused) else asked(b.move_over_list, [number for box in boxes for number in box], mover)
    if isinstance(boxes, list) and any(abs(number) > 2**25 for box in boxes for number in box):
        COUNTS["move over what it collects"].add(name, over, b.Refused(4))
        return
    COUNTS["move over what it collects"].add(name, move_text(mover, asked(b.move, tables, window, air, mover)), move_text(mover, over))


def one_list(call, theirs):
    """movelist box6 delta3 step ground n box6*n"""
    words = call.split()[1:]
    numbers = [number(w) for w in words[:10] + words[12:]]
    mover = b.Mover(tuple(numbers[:6]), tuple(numbers[6:9]), numbers[9], int(words[10]), b.OLDER_CAP)
    COUNTS["move_over_list"].add(call, move_text(mover, asked(b.move_over_list, numbers[10:], mover)), theirs)


def one_record(name, theirs):
    """after NUMBER fall SUM LANDED: the record after the scene's tick, from a fresh one"""
    with open("crates/replay/data/%s.scn" % name, "rb") as f:
        _, record = b.step_falling(*parts(scenefile.unpacked(f.read())))
    COUNTS["fall records"].add(name, "fall" + bits(record), theirs)


def example(name):
    with open("examples/%s.txt" % name) as f:
        return scenefile.written(f.read())


def case_a():
    """Case A of the requirements: what its step does to the box."""
    tables, window, _ = parts(example("case-a"))
    mover = b.Mover((0.0, 1.25, 0.0, 1.0, 2.25, 1.0), (0.25, -0.5, 0.0))
    theirs = b.Moved((0.25, 1.0, 0.0, 1.25, 2.0, 1.0), (0.25, -0.25, 0.0), True)
    COUNTS["move"].add("case A", move_text(mover, asked(b.move, tables, window, 0, mover)), move_text(mover, theirs))
    COUNTS["collected"].add("case A", asked(b.collected, tables, window, 0, mover), [(0, 0, 0, 1, 1, 1), (1, 0, 0, 2, 1, 1)])
    COUNTS["collected"].add("step height", asked(b.collected, tables, window, 0, mover._replace(step=5.0)), b.Refused(3))
    # of the fence, joined to the unloaded column, the arm alone lies in the way
    tables, window, _ = parts(example("fence-unloaded"))
    mover = b.Mover((1.6875, 1.0, 0.625, 1.9375, 1.25, 0.875), (0.0, 0.0, 0.75))
    COUNTS["collected"].add("fence", asked(b.collected, tables, window, 0, mover), [(1.625, 1.0, 1.375, 2.0, 2.5, 1.625)])


def recorder():
    """Each example as tools/scene packs it, and as a recorder writes it; a flap that is not present; and a window that no file holds."""
    for name in ("case-a", "fence-unloaded", "step-up", "door-1", "door-2"):
        scene = example(name)
        COUNTS["write_scene beside tools/scene"].add(name, asked(b.write_scene, *parts(scene)) == scenefile.packed(scene), True)
    tables, window, body = parts(example("case-a"))
    plain, flap = asked(b.write_scene, tables, window, body), [*body.numbers[:12], 0.25, *body.numbers[13:]]
    COUNTS["write_scene"].add("a flap that is not present", asked(b.write_scene, tables, window, body._replace(numbers=flap)) == plain, True)
    present = body._replace(numbers=flap, words=[*body.words[:4], 1, *body.words[5:]])
    COUNTS["write_scene"].add("a flap that is present", scenefile.value(scenefile.unpacked(asked(b.write_scene, tables, window, present)).body,
                                                                        scenefile.BODY["flap"]), 0.25)
    wide = b.Window([0] * (64 * 64 * 65), (0, 0, 0), (64, 64, 64), 0, 63)
    COUNTS["write_scene"].add("more than 128 blocks", asked(b.write_scene, tables, wide, body), b.Refused(12))


def windows():
    """Case A's window with other words, sizes, heights and air, and its body beyond the world."""
    count = COUNTS["heights, columns and air"]
    tables, window, body = parts(example("case-a"))
    words, mover = list(window.cells), b.Mover((0.0, 1.25, 0.0, 1.0, 2.25, 1.0), (0.25, -0.5, 0.0))

    def refused(what, theirs, air=0, **lent):
        lent, airy = window._replace(**lent), body._replace(words=[*body.words[:5], air, 0])
        for call in ((b.step, tables, lent, airy), (b.move, tables, lent, air, mover), (b.collected, tables, lent, air, mover)):
            ours = asked(*call)
            count.add(what, ours.number if isinstance(ours, b.Refused) else 0, theirs)

    refused("as it is", 0)
    refused("lowest over highest", 2, lowest=320, highest=319)
    refused("lowest beyond its limit", 2, lowest=-2**25 - 1)
    refused("highest beyond its limit", 2, highest=2**25 + 1)
    refused("a column of 2", 2, cells=words[:-1] + [2])
    refused("a column too few", 2, cells=words[:-1])
    refused("a column too many", 2, cells=words + [1])
    refused("no columns", 2, cells=words[:16])
    refused("no words", 2, cells=[])
    refused("an unregistered cell", 0, cells=[2**32 - 1] + words[1:])
    refused("air without a record", 3, air=2)
    refused("air without a record, and a column of 2", 2, air=2, cells=words[:-1] + [2])
    refused("a column is not there", 5, cells=words[:8] + words[-2:], sizes=(1, 4, 2))
    refused("begins above what is asked for", 5, origin=(0, 0, 0))
    refused("unless that is below the world", 0, origin=(0, 0, 0), lowest=0)

    # It falls as through a window that holds air there; columns that are not loaded, to the east, stop it at every height.
    for y, low in (400.25, 398), (-100.75, -103):
        high = body._replace(numbers=[0.5, y, *body.numbers[2:]])
        small = window._replace(lowest=-64, highest=319)
        falls = b.Tick((0.75, y - 0.5, 0.5), (0.125, -0.25, 0.0), False, "none")
        count.add("beyond the world", asked(b.step, tables, small, high), falls)
        held = window._replace(cells=[0] * 16 + [1] * 4, origin=(0, low, 0), lowest=-999, highest=999)
        count.add("held as air", asked(b.step, tables, held, high), falls)
        count.add("beside columns that are not loaded", asked(b.step, tables, small._replace(cells=words[:16] + [1, 0, 1, 0]), high),
                  falls._replace(feet=(0.5, y - 0.5, 0.5), velocity=(0.0, -0.25, 0.0)))
    for height in "lowest", "highest":
        try:
            count.add("a height beyond a word", asked(b.step, tables, window._replace(**{height: 2**31}), body), "ValueError")
        except ValueError:
            count.add("a height beyond a word", "ValueError", "ValueError")


def records():
    """Case A's step with a record: what is refused, and what the record is after a landing and after a fall through the sky."""
    count, most, nan, inf = COUNTS["fall records"], 2.0**30, float("nan"), float("inf")
    tables, window, body = parts(example("case-a"))
    window = window._replace(lowest=-64, highest=319)
    sky = body._replace(numbers=[0.5, 400.25, *body.numbers[2:]])
    for bad in number("41d0000000000001"), -5e-324, -1.0, nan, inf, -inf:
        for fall in b.Fall(bad), b.Fall(0.0, bad):
            count.add("a 3", asked(b.step_falling, tables, window, body, fall), b.Refused(3))
            count.add("before 4", asked(b.step_falling, tables, window, body._replace(numbers=[nan, *body.numbers[1:]]), fall), b.Refused(3))
            count.add("after 1", asked(b.step_falling, b.Tables([], []), window, body, fall), b.Refused(1))
    for what, given, fall, after in (("landed", body, (2.0, 9.0), (0.0, 2.25)), ("landed, at the cap", body, (most, 0.0), (0.0, most)),
                                     ("fell", sky, (1.5, 9.0), (2.0, 9.0)), ("fell, at the cap", sky, (most, 9.0), (most, 9.0)),
                                     ("negative zeros", sky, (-0.0, -0.0), (0.5, -0.0))):
        count.add(what, bits(b.step_falling(tables, window, given, b.Fall(*fall))[1]), bits(after))


def midnight():
    """Case A many times over: calls that are refused whole write nothing; the rest of the buffer stays; two threads answer as one."""
    count = COUNTS["midnight's refusals"]
    tables, window, body = parts(example("case-a"))
    rows, cells = b.window_rows([window] * 17)
    numbers, words = b.body_rows([body._replace(age=k) for k in range(4097)], [k % 16 for k in range(4097)])
    wrong = array.array("I", tables.records)
    wrong[39] = 14

    def called(windows, bodies, room, records=tables.records):
        out = array.array("d", [7.0]) * room
        told = asked(b.midnight_capped, b.Tables(records, tables.shapes), rows[:windows * 10], cells, numbers[:bodies * 21], words[:bodies * 10], out)
        return (told.number if isinstance(told, b.Refused) else 0), out

    def refused(what, theirs, *call):
        told, out = called(*call)
        count.add(what, (told, all(x == 7 for x in out)), (theirs, True))

    refused("4,097 bodies", 14, 16, 4097, 4097 * 13)
    refused("17 windows", 14, 17, 4096, 4096 * 13)
    refused("a number short", 11, 16, 4096, 4096 * 13 - 1)
    refused("14 before 11", 14, 17, 4097, 0)
    refused("a wrong word", 1, 16, 4096, 4096 * 13, wrong)
    refused("1 before 14", 1, 17, 4097, 0, wrong)
    refused("nothing at all", 0, 0, 0, 5)
    told, out = called(16, 4096, 4096 * 13 + 5)
    alone = bits([0.0, 0.75, 1.0, 0.5, 0.125, 0.0, 0.0, 1.0, 0.0, 0.0, 0.25, 0.0, 0.0])
    count.add("4,096 bodies", (told, {bits(out[k:k + 13]) for k in range(0, 4096 * 13, 13)}, list(out[4096 * 13:])), (0, {alone}, [7.0] * 5))
    short = asked(b.midnight_capped, tables, rows[:10], cells, numbers[:41], words[:20])
    count.add("a row cut short", [b.answered(row)[0] for row in short], [b.step(tables, window, body), b.Refused(3)])
    halves, both = memoryview(array.array("d", [7.0]) * (4096 * 13)), []
    for first, last in (0, 2048), (2048, 4096):
        part = (rows[:160], cells, numbers[first * 21:last * 21], words[first * 10:last * 10], halves[first * 13:last * 13])
        both.append(threading.Thread(target=b.midnight_capped, args=(tables, *part)))
    for thread in both:
        thread.start()
    for thread in both:
        thread.join()
    count.add("two threads", bits(halves), bits(out[:4096 * 13]))
    if numpy:
        lent = [as_numpy(a) for a in (rows[:160], cells, numbers[:4096 * 21], words[:4096 * 10])]
        told = b.midnight_capped(tables, lent[0].reshape(16, 10), lent[1], lent[2].reshape(4096, 21), lent[3].reshape(4096, 10))
        count.add("numpy's arrays", (told["feet"][4095].tolist(), set(told["landed"]), told["refusal"].sum()), ([0.75, 1.0, 0.5], {0.25}, 0))
    try:
        b.midnight_capped(tables, rows[:10], cells, numbers[:21], words[:10], memoryview(bytes(104)).cast("d"))
        count.add("a buffer that may only be read", "taken", "ValueError")
    except ValueError:
        count.add("a buffer that may only be read", "ValueError", "ValueError")


def caps():
    """Case A's step, move and collection, which meet two boxes, and a list of them, under a cap."""
    tables, window, body = parts(example("case-a"))
    mover = b.Mover((0.0, 1.25, 0.0, 1.0, 2.25, 1.0), (0.25, -0.5, 0.0))
    boxes = [number for box in b.collected(tables, window, 0, mover) for number in box]
    for cap, theirs in (0, 0), (1, 6), (2, 0), (512, 0), (513, 3), (2**32 - 1, 3):
        capped = mover._replace(cap=cap)
        for call in ((b.step, tables, window, body._replace(words=[*body.words[:6], cap])), (b.move, tables, window, 0, capped),
                     (b.collected, tables, window, 0, capped), (b.move_over_list, boxes, capped)):
            ours = asked(*call)
            COUNTS["caps"].add("%s under %d" % (call[0].__name__, cap), ours.number if isinstance(ours, b.Refused) else 0, theirs)
    for cap, count, theirs in (0, 512, 0), (0, 513, 6), (128, 128, 0), (128, 129, 6), (511, 512, 6):
        ours = asked(b.move_over_list, [0.0] * (6 * count), mover._replace(cap=cap))
        COUNTS["caps"].add("%d boxes under %d" % (count, cap), ours.number if isinstance(ours, b.Refused) else 0, theirs)


def two_parties():
    """Case A for two parties: one that is refused has its half as it was, and the other the answers of the body alone."""
    count = COUNTS["midnight_two"]
    tables, window, body = parts(example("case-a"))
    rows, cells = b.window_rows([window] * 17)
    numbers, words = b.body_rows([body] * 2049, [k % 16 for k in range(2049)])
    alone = numbers_in(b.midnight_capped(tables, rows[:10], cells, numbers[:21], words[:10])[0])
    wrong = array.array("I", tables.records)
    wrong[39] = 14

    def called(what, room, *sides, records=tables.records):
        out, theirs = array.array("d", [7.0]) * room, array.array("d", [7.0]) * room
        for k, (_, bodies, refusal) in enumerate(sides):
            if not refusal:
                theirs[k * (room // 2):k * (room // 2) + bodies * 13] = array.array("d", alone * bodies)
        lent = (b.Party(rows[:windows * 10], cells, numbers[:bodies * 21], words[:bodies * 10]) for windows, bodies, _ in sides)
        told = b.midnight_two(b.Tables(records, tables.shapes), *lent, out)
        fine = [b.Refused(refusal) if refusal else bodies for _, bodies, refusal in sides]
        count.add(what, ([t if isinstance(t, b.Refused) else len(t) for t in told], out == theirs), (fine, True))

    full, none, three = (16, 2048, 0), (0, 0, 0), (16, 3, 0)
    called("2,048 bodies each", 4096 * 13 + 1, full, full)
    called("2,049 bodies and 2,048", 4096 * 13, (16, 2049, 14), full)
    called("2,048 bodies and 17 windows", 4096 * 13 + 1, full, (17, 1, 14))
    called("a half that is short for one", 7 * 13, (16, 4, 11), three)
    called("14 before 11", 7 * 13, three, (17, 2049, 14))
    called("three bodies and nothing", 7 * 13, three, none)
    called("nothing at all", 1, none, none)
    called("a wrong word, for both", 7 * 13, (17, 3, 1), (0, 0, 1), records=wrong)
    told = b.midnight_two(tables, b.Party(rows[:10], cells, numbers[:42], words[:20]), b.Party([], [], [], []))
    count.add("a buffer of its own", [len(t) for t in told], [2, 0])


def palette():
    """The classroom palette against the tables that tools/scenepalette.py works out by itself; and the tick of a yard."""
    count, tables = COUNTS["classroom palette"], b.palette()
    theirs = scenepalette.tables()
    count.add("records", list(tables.records), theirs[0])
    count.add("boxes", list(struct.unpack("<%dI" % len(tables.shapes), tables.shapes.tobytes())), theirs[1])
    count.add("the table check", asked(b.check_tables, tables), None)
    for name, code, n in b.PALETTE:
        short, long = array.array(code, [7] * (n - 1)), array.array(code, [7] * (n + 1))
        count.add("a buffer too short", (asked(b.filled, name, short), set(short)), (b.Refused(11), {7}))
        count.add("a longer buffer", (b.filled(name, long)[:n], long[n]), (tables.records if code == "I" else tables.shapes, 7))
    scene = example("school-yard")
    _, window, body = parts(scene)
    count.add("a yard", asked(b.step, tables, window, body), asked(b.tick, scenefile.packed(scene)))
    # its blocks stand as the rules join them, so that what is collected of it is what is recorded
    stand = [(x, z, box) for x in range(1, 9) for z in range(1, 6)
             for box in scenepalette.boxes_of(window.cells[70 + z * 10 + x])]
    theirs = [(x + box[0] / 16, 1 + box[1] / 16, z + box[2] / 16, x + box[3] / 16, 1 + box[4] / 16, z + box[5] / 16) for x, z, box in stand]
    count.add("its boxes", asked(b.collected, tables, window, 0, b.Mover((1.0, 1.0, 1.0, 8.99, 2.0, 5.99), (0.0, 0.0, 0.0))), theirs)


def summaries(name, tables, window, body):
    """With a summary every answer is that of the plain call, before and after a set."""
    air, count = body.words[5], COUNTS["summaries"]
    summed = asked(b.with_summary, tables, window, air)
    if isinstance(summed, b.Refused):
        count.add(name, summed.number in (1, 2, 3), True)
        return
    plain = len(window.cells)
    for state in (air, 0, 1):
        alone = summed._replace(cells=summed.cells[:plain])
        count.add(name, asked(b.step_summed, tables, summed, body), asked(b.step, tables, alone, body))
        count.add(name, asked(b.step_checked, tables, summed, body), asked(b.step_checked, tables, alone, body))
        count.add(name, asked(b.step_falling_summed, tables, summed, body), asked(b.step_falling, tables, alone, body))
        count.add(name, list(asked(b.with_summary, tables, alone, air).cells), list(summed.cells))
        b.check_summary(tables, summed, air)
        b.set_block(tables, summed, air, window.origin, state)
        count.add(name, summed.cells[0], state)
    wrong = summed._replace(cells=summed.cells[:-1])
    count.add(name, asked(b.check_summary, tables, wrong, air), b.Refused(11))
    wrong = summed._replace(cells=summed.cells[:-1] + array.array("I", [2]))
    count.add(name, asked(b.check_summary, tables, wrong, air), b.Refused(13))
    count.add(name, asked(b.set_block, tables, wrong, air, window.origin, 0), b.Refused(13))
    beyond = (window.origin[0] - 1, *window.origin[1:])
    count.add(name, asked(b.set_block, tables, summed, air, beyond, 0), b.Refused(5))
    mover = b.Mover((0.0, 0.0, 0.0, 1.0, 1.0, 1.0), (0.5, -0.5, 0.0), 0.0, False)
    count.add(name, asked(b.move_summed, tables, summed, air, mover), asked(b.move, tables, summed._replace(cells=summed.cells[:plain]), air, mover))


CHANCE = random.Random(14)


def minutes(name, scene, written):
    """A scene with a log of random events behind it, as tools/scene packs it; and what the minute leaves, beside steps and sets one by one."""
    tables, window, body = parts(scene)
    events = [None if CHANCE.random() < 0.7 else (*(CHANCE.randrange(n + (CHANCE.random() < 0.02)) for n in window.sizes), CHANCE.randrange(len(scene.records) // 20))
              for _ in range(CHANCE.choice((0, 5, 12, 29, 30, 31) if len(window.cells) < 1000 else (0, 5)))]
    log = asked(b.write_log, written, events)
    if len(written) // 512 + len(events) // 30 + 1 > 128:
        COUNTS["write_log beside tools/scene"].add(name, log, b.Refused(12))
        return
    COUNTS["write_log beside tools/scene"].add(name, log == scenelog.packed(scene, events), True)
    turns = list(scenelog.played(scene, events, b))
    refused = turns.pop()[1] if turns and isinstance(turns[-1][1], b.Refused) else None
    ours = asked(b.minute, tables, window, body, log)
    if refused and not turns:
        COUNTS["minute"].add(name, ours, refused)
        return
    lines = [tick.feet for _, tick, _ in turns]
    feet, velocity, ground = turns[-1][1][:3] if turns else (tuple(body.numbers[:3]), tuple(body.numbers[3:6]), body.words[0] != 0)
    theirs = (lines, feet, velocity, ground, turns[-1][2] if turns else b.Fall(), len(turns), (body.age + len(turns)) % 2**64, refused)
    COUNTS["minute"].add(name, (*ours[:7], ours.refused), theirs)
    COUNTS["minute"].add(name, asked(b.minute, tables, window, body, log[:-1]), b.Refused(8))
    COUNTS["minute"].add(name, asked(b.minute, tables, window, body, written), b.Refused(8))


def stored_minute(name, theirs):
    """A stored log, run over its own scene's parts; one that is no log, over case A's."""
    with open("crates/replay/data/%s.log" % name, "rb") as f:
        log = f.read()
    no_log = theirs == "refused 8"
    scene, events = (example("case-a"), None) if no_log else scenelog.unpacked(log)
    tables, window, body = parts(scene)
    ours = asked(b.minute, tables, window, body, log)
    refused = ours if isinstance(ours, b.Refused) else ours.refused
    lines = [] if isinstance(ours, b.Refused) else ["feet" + bits(feet) for feet in ours.lines]
    COUNTS["minute"].add(name, "; ".join(lines + (["refused %d" % refused.number] if refused else [])), theirs)
    if not no_log and log[:4] == b"SCN2" and theirs[:9] not in ("refused 1", "refused 2", "refused 3", "refused 4"):
        COUNTS["write_log beside tools/scene"].add(name, asked(b.write_log, b.write_scene(tables, window, body), events) == log, True)


def doors():
    """What docs/MODERATORS.md says of two ticks at a door: the first ends one rounding inside it, the second behind it."""
    first, second = example("door-1"), example("door-2")
    stopped, passed = (asked(b.step, *parts(scene)) for scene in (first, second))
    half = scenefile.value(first.body, scenefile.BODY["width"]) / 2
    start = tuple(scenefile.values(second.body, scenefile.BODY["position"]))
    COUNTS["two ticks at a door"].add("stopped", (stopped.feet, stopped.velocity[0], stopped.feet[0] + half), (start, 0.0, -1.9999999999999998))
    COUNTS["two ticks at a door"].add("passed", (passed.feet[0], passed.feet[0] - half > -2 + 0.1875), (-1.4999999999999996, True))


def arrays():
    """An array is lent as it is, a list copied, and nothing converted in silence."""
    def told(**lent):
        try:
            return b.step(tables._replace(**lent), window, body)
        except (TypeError, ValueError, OverflowError) as why:
            return type(why)

    tables, window, body = parts(example("case-a"))
    count, fine, words = COUNTS["arrays as they are"], b.step(tables, window, body), tables.records
    count.add("a list", told(records=list(words)), fine)
    count.add("only read", told(records=memoryview(words).toreadonly()), fine)
    count.add("not aligned", told(records=memoryview(b"\0" + words.tobytes())[1:].cast("B").cast("I")), fine)
    count.add("no boxes", told(shapes=words[:0]), TypeError)
    count.add("of 8 bytes", told(records=memoryview(bytes(8 * len(words))).cast("Q")), TypeError)
    count.add("signed", told(records=memoryview(words).cast("B").cast("i")), TypeError)
    count.add("gaps", told(records=memoryview(words)[::2]), ValueError)
    count.add("beyond a word", told(records=[2**32]), OverflowError)
    count.add("none", asked(b.step, b.Tables([], []), window, body), b.Refused(1))
    try:
        b.step(tables, window._replace(sizes=(2**32 + 2, 4, 2)), body)
        count.add("a size beyond a word", "taken", "ValueError")
    except ValueError:
        count.add("a size beyond a word", "ValueError", "ValueError")


def main():
    with open("crates/replay/stdout") as f:
        for line in f.read().splitlines():
            if line[:1].isdigit():
                one_scene(*line.split(" ", 1))
            elif line.startswith("movelist "):
                one_list(*line.split("=> ", 1))
            elif line.startswith("after "):
                one_record(*line[6:].split(" ", 1))
            elif line.startswith("minute "):
                stored_minute(*line[7:].split(" ", 1))
    case_a()
    recorder()
    windows()
    records()
    midnight()
    caps()
    two_parties()
    palette()
    doors()
    arrays()
    if not numpy:
        print("Python, %s: not tried, numpy is not there" % COUNTS.pop("step of numpy's arrays").what)
    fine = [count.tell() for count in COUNTS.values()]
    sys.exit(not all(fine))


main()

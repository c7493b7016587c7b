"""Logs of a minute: a scene, and blocks of events behind it. The texts that people write them as are a scene's, with lines of events among them.

`written` makes a scene and its events of a text, `printed` a text of both, `packed` a file, and `unpacked` both of a file, where the events are None
if the file is a scene alone. An event is None, a tick, or (x, y, z, state), a cell to set, counted from the window's origin. `played` runs them."""
import copy
import struct

import scenefile
import scenepalette
from scenefile import BODY, WINDOW, Malformed, Mistake, plural, value, values

PER_BLOCK, WORDS = 30, 4  # events to a block, and words to an event
TICK, SET = 1, 2
KEYS = ("tick", "set", "name")


# ---- texts

def numbers(key, given, count):
    if len(given) < count or not all(g.isdigit() for g in given[:count]):
        raise Mistake("%s takes %s" % (key, plural(count, "whole number")))
    return [int(g) for g in given[:count]]


def state_of(given, names, palette):
    """A state by its number, by a name that the text gives it, or by the palette's."""
    if palette and given and given[0].rstrip(",") in scenepalette.FIRST:
        try:
            row = scenepalette.read_row(" ".join(given).replace(",", " ").split())
        except ValueError as why:
            raise Mistake("set: %s" % why) from None
        if len(row) != 1:
            raise Mistake("set takes one state, got %d" % len(row))
        return row[0]
    if len(given) != 1:
        raise Mistake("set takes x, y, z and a state")
    if given[0] in names:
        return names[given[0]]
    if not given[0].isdigit() or int(given[0]) >= scenefile.WORD:
        raise scenefile.unknown(given[0], list(names), " as a state")
    return int(given[0])


def event(key, given, names, palette):
    """The events of a line."""
    if key == "tick":
        return [None] * (numbers(key, given, 1)[0] if given else 1)
    x, y, z = numbers(key, given, 3)
    if max(x, y, z) > 255:
        raise Mistake("set: a cell is 0 to 255 from the window's origin")
    return [(x, y, z, state_of(given[3:], names, palette))]


def written(text):
    """The scene, and its events; None where no line of the text is one."""
    lines, log = text.split("\n"), []
    for n, line in enumerate(lines):
        words = line.split("#")[0].split()
        if words and words[0] in KEYS:
            log.append((n + 1, words[0], words[1:]))
            lines[n] = ""
    scene = scenefile.written("\n".join(lines))
    palette, names, events = (scene.records, scene.boxes) == scenepalette.tables(), {}, []
    for number, key, given in log:
        try:
            if key == "name":
                if len(given) != 2 or not given[1].isdigit() or given[0] in names:
                    raise Mistake("name takes a new name and the number of a state")
                names[given[0]] = int(given[1])
            else:
                events += event(key, given, names, palette)
        except Mistake as why:
            raise Mistake("line %d: %s" % (number, why)) from None
    return scene, events if any(key != "name" for _, key, _ in log) else None


def printed(scene, events):
    palette, out, ticks = (scene.records, scene.boxes) == scenepalette.tables(), [], 0
    for e in (events or []) + [()]:
        if e is None:
            ticks += 1
            continue
        if ticks:
            out.append("tick %d" % ticks)
            ticks = 0
        if e:
            out.append("set %d %d %d %s" % (*e[:3], scenepalette.name_of(e[3]) if palette and e[3] < scenepalette.STATES else e[3]))
    return scenefile.printed(scene) + "".join(line + "\n" for line in out)


# ---- files

def packed(scene, events, mark=scenefile.NEW):
    data = scenefile.packed(scene, mark)
    if events is None:
        return data
    words = [w for e in events for w in ((TICK, 0, 0, 0) if e is None else (SET, e[0] | e[1] << 8 | e[2] << 16, e[3], 0))] + [0] * WORDS
    for n, payload in enumerate(scenefile.pieces(words, PER_BLOCK * WORDS), len(data) // 512):
        data += scenefile.sealed([mark, scenefile.LOG_KIND, n] + payload + [0] * (scenefile.PAYLOAD - len(payload)))
    return data


def event_causes(n, k, w):
    """What is wrong with event k of block n, of these four words."""
    at = 3 + k * WORDS
    if w[0] not in (TICK, SET):
        yield "block %d, word %d: event %d, must be 1 (tick), 2 (set) or 0 (end)" % (n, at, w[0])
    for i in (1, 2, 3) if w[0] == TICK else (3,) if w[0] == SET else ():
        if w[i]:
            yield "block %d, word %d: is %d, must be 0: it is spare" % (n, at + i, w[i])
    if w[0] == SET and w[1] >> 24:
        yield "block %d, word %d: the position %08x has bits above 23" % (n, at + 1, w[1])


def unpacked(data):
    scene, behind = scenefile.parts_of(data)
    if not behind or behind[0][1] != scenefile.LOG_KIND:
        return scenefile.unpacked(data), None
    first, events, causes, ended = len(data) // 512 - len(behind), [], [], False
    for n, w in enumerate(behind, first):
        if w[1] != scenefile.LOG_KIND:
            raise Malformed(["block %d, word 1: is %d, must be %d (events)" % (n, w[1], scenefile.LOG_KIND)])
        if ended:
            raise Malformed(["block %d: behind the end of the log" % n])
        for k, e in enumerate(scenefile.pieces(w[3:3 + PER_BLOCK * WORDS], WORDS)):
            if ended or e[0] == 0:
                ended = True
                causes += ["block %d, word %d: is %d, must be 0: the log has ended" % (n, 3 + k * WORDS + i, x) for i, x in enumerate(e) if x]
            else:
                causes += event_causes(n, k, e)
                events.append(None if e[0] == TICK else (e[1] & 255, e[1] >> 8 & 255, e[1] >> 16 & 255, e[2]))
        causes += ["block %d, word %d: is %d, must be 0: it is unused" % (n, k, w[k]) for k in range(3 + PER_BLOCK * WORDS, 126) if w[k]]
    if not ended:
        causes.append("block %d: the log has no end" % (first + len(behind) - 1))
    if causes:
        raise Malformed(causes)
    return scene, events


def told(events):
    ticks = sum(e is None for e in events)
    return "a log: %s and %s" % (plural(ticks, "tick"), plural(len(events) - ticks, "set"))


# ---- the run, as separate steps of the library: a tick is one call, a set writes one cell

def played(scene, events, b):
    """For each tick the scene before it, and b's answer with the fall record after it, or b.Refused, which ends it. b is hosts/boltjuniper.py."""
    now, fall = copy.deepcopy(scene), b.Fall()
    for e in events:
        sizes = values(now.window, WINDOW["sizes"])
        if e is not None and any(c >= size for c, size in zip(e, sizes)):
            yield copy.deepcopy(now), b.Refused(5), fall
            return
        if e is not None:
            now.cells[(e[1] * sizes[2] + e[2]) * sizes[0] + e[0]] = e[3]
            continue
        tables, window, body = scenefile.arrays(now)
        before = copy.deepcopy(now)
        try:
            tick, fall = b.step_falling(b.Tables(*tables), b.Window(*window), b.Body(*body), fall)
        except b.Refused as why:
            yield before, why, fall
            return
        yield before, tick, fall
        for key, given in (("position", tick.feet), ("velocity", tick.velocity)):
            at = BODY[key].at
            now.body[at:at + 6] = struct.unpack("<6I", struct.pack("<3d", *given))
        now.body[BODY["ground"].at] = int(tick.ground)
        age = BODY["age"]
        now.body[age.at:age.at + 2] = scenefile.low_first((value(now.body, age) + 1) % 2**64, 2)

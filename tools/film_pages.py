"""Puts the pages of films together, from their parts in crates/film_app/src: page.html, page.css, drawing.js and player.js, which
all films share, and a plant's own style and script: of plans crates/plan_app/src/plan.js."""

import os

ROOT = os.path.realpath(f"{os.path.dirname(os.path.realpath(__file__))}/..")
SOURCES = f"{ROOT}/crates/film_app/src"
PLAN_SCRIPT = f"{ROOT}/crates/plan_app/src/plan.js"
MARK = "@LINES@\n"
# In a simulation of the cell nobody calls at the same time.
BUSY = """In a simulation nobody calls at the same time: a capital letter in the schedule makes the interlock answer busy.
  """


def text_of(path):
    with open(path, encoding="ascii", newline="") as it:
        return it.read()


def parts_of(title, style, script, data="", busy=""):
    """The head and the tail of a page, before and after its lines: with a plant's title, style, script and data."""
    page, player = (text_of(f"{SOURCES}/{name}") for name in ("page.html", "player.js"))
    styles, plant = text_of(f"{SOURCES}/page.css") + style, text_of(f"{SOURCES}/drawing.js") + "\n" + script
    texts = {"TITLE": title, "STYLE": styles, "DATA": data, "BUSY": busy, "PLANT": plant, "PLAYER": player}
    for mark, text in texts.items():
        page = page.replace(f"@{mark}@", text if mark in ("DATA", "BUSY") else text.rstrip())
    head, mark, tail = page.partition(MARK)
    if not mark or MARK in tail or "\r" in page:
        raise ValueError(f"{SOURCES}/page.html: one line {MARK.strip()}, and no carriage return")
    return head, tail


def cell_parts():
    """The head and the tail of a page of the cell."""
    return parts_of("The production cell", text_of(f"{SOURCES}/cell.css"), text_of(f"{SOURCES}/cell.js"), busy=BUSY)


def cell_page(lines):
    head, tail = cell_parts()
    return head + lines + tail


def of_plans(page):
    """A part of the page with the name that `plan check` has for the word's last bit."""
    return page.replace("mark: the watch", "stop: the watch").replace('"stopped" : "mark"', '"stopped" : "stop"')


# How a page reads zones of which some have one owner: what stands in the player, and what takes its place.
OF_SPACES = (
    ("""// The word: a zone has two bits for its owner, one for a plate if a way leads through it, and none, one or two for its
// posture, by how many it may have; then one a place, twenty for the stamp, one for the stop.
""", """// The word: the first side of a zone has two to four bits for the owner, by how many guests there are; each side has one
// for a plate if a way leads through it, and none, one or two for its posture, by how many it may have; then one a
// place, twenty for the stamp, one for the stop.
const FIRST = ZONES.map((zone, i) => { while (ZONES[i].joins) i--; return i; });
const OWNERS = FIRST.map((first) => [null, ZONES[first].host, ...ZONES.filter((zone, i) => FIRST[i] === first).map(({guest}) => guest)]);
const OWNER_BITS = FIRST.map((first, i) => first !== i ? 0 : OWNERS[i].length < 5 ? 2 : OWNERS[i].length < 9 ? 3 : 4);
"""),
    ("""const LOWS = FIELDS.reduce((lows, {flag, posture}) => [...lows, lows[lows.length - 1] + 2 + flag + posture], [0]);
""", """const LOWS = FIELDS.reduce((lows, {flag, posture}, i) => [...lows, lows[i] + OWNER_BITS[i] + flag + posture], [0]);
"""),
    ("""  const zones = ZONES.map(({host, guest}, i) => {
    const owner = [null, host, guest][bits(LOWS[i], 2)], {postures, flag, posture} = FIELDS[i];
    return {owner, flag: bits(LOWS[i] + 2, flag), posture: postures[bits(LOWS[i] + 2 + flag, posture)]};
  });
""", """  const zones = ZONES.map((zone, i) => {
    const owner = OWNERS[i][bits(LOWS[FIRST[i]], OWNER_BITS[FIRST[i]])], {postures, flag, posture} = FIELDS[i];
    const low = LOWS[i] + OWNER_BITS[i];
    return {owner, flag: bits(low, flag), posture: postures[bits(low + flag, posture)]};
  });
"""),
)


def of_spaces(tail):
    """The tail of a page of a plan in which a zone has several guests."""
    for old, new in OF_SPACES:
        if tail.count(old) != 1:
            raise ValueError("the player reads zones in other words")
        tail = tail.replace(old, new)
    return tail


def plan_parts():
    """The head, the middle and the tail of a page of a plan: before its data, between data and lines, and after its lines; and the
    tail where a zone has several guests."""
    rows = '<script id="plan" type="application/json">\n@ROWS@\n</script>\n'
    head, tail = parts_of("A plan", "", text_of(PLAN_SCRIPT), rows)
    head, mark, middle = of_plans(head).partition("@ROWS@\n")
    if not mark:
        raise ValueError("the data of a page of a plan has no place")
    return head, middle, of_plans(tail), of_spaces(of_plans(tail))


def plan_page(data, lines, has_spaces=False):
    head, middle, tail, tail_of_spaces = plan_parts()
    return head + data + middle + lines + (tail_of_spaces if has_spaces else tail)

"""Makes plans, with drives or without, the lines of all that stands in them, and scripts, by a random source."""

import plans

VERBS = ("claim", "give", "yield", "take", "release")
POSTURES = ("closed", "moving", "openin", "openout")
NAMES = "feed loader press arm belt cart door crane rail oven lift drum saw mill gate dock tray robot points train".split()
PLACES = "hand die hook bed fork slot rack bin pan tip".split()
POSES = "load unload closed travelling high low left right open shut".split()
ZONES = "inside mouth track pit z1 z2 z3 shelf".split()
MOTORS = "ram hoist arm_in_press lamp blades drive hammer valve jaw fan".split()
SENSORS = "at_top at_bottom there shut_tight cold until run low high in_place".split()
TITLES = ("arm crushed", "two trains", "A jam (again)", "boiling over", "x", "derailed - 2")
KINDS = ("machine", "zone", "motor", "hazard")
WORDS = ("Press", "", "2nd", "a-b", "a b", "é", "x" * 33, "a" * 41, "press ", "_a", "ab\t", "A")
VALUES = ("3", "true", '"text"', "[]", "[1]", '["a", 2]', "{}", "{ a = 1 }", "1.5", "[[]]", "[{}]", '["a", "b", "c"]', "1979-05-27")


class Raw(str):
    """A value as it stands in the text."""


def name(r, words, taken):
    """A name that isn't taken."""
    while True:
        found = r.choice(words) + r.choice(("", "", "", "1", "_a", "_2"))
        if r.randrange(60) == 0:
            found = found.ljust(32, "x")
        if found not in taken:
            taken.append(found)
            return found


def zone_row(r, machines, taken):
    """A zone between two machines, with ways between places of theirs."""
    host, guest = r.sample(machines, 2)
    row = {"name": name(r, ZONES, taken), "host": host["name"], "guest": guest["name"]}
    for key, giver, receiver in (("inward", guest, host), ("outward", host, guest)):
        if giver["places"] and receiver["places"] and r.randrange(4):
            row[key] = [r.choice(giver["places"]), r.choice(receiver["places"])]
    return row


def pose_row(r, hosted, taken):
    """A pose that gives some of these zones postures."""
    zones = r.sample(hosted, r.randrange(len(hosted) + 1)) if r.randrange(3) else hosted
    moves = r.randrange(3) == 0
    row = {"name": name(r, POSES, taken), "gives": {it: "moving" if moves else r.choice(POSTURES) for it in zones}}
    if r.randrange(3) == 0:
        row["after_moving"] = r.choice((True, True, False))
    return row


def verbs_of(machine, zone):
    """What a party may ask about a zone: it gives and takes only where a way begins or ends at a place of its own."""
    ways = [zone[key] for key in ("inward", "outward") if key in zone]
    verbs = ["claim", "release", "claim", "release", "yield"]
    verbs += ["give"] * any(it[0] in machine["places"] for it in ways)
    return verbs + ["take"] * any(it[1] in machine["places"] for it in ways)


def ends(r, machine):
    """Makes some of a machine's places sources, sinks, or both: of half of the machines none."""
    for key in ("sources", "sinks") if machine["places"] and r.randrange(2) else ():
        machine[key] = [it for it in machine["places"] if r.randrange(3)]


def ends_of(machine):
    """The sources and sinks of a machine, each once."""
    return [it for it in machine["places"] if it in machine.get("sources", []) + machine.get("sinks", [])]


def program(r, machine, zones, most):
    """The lines of a program, each of which may be done."""
    own, own_ends = [it for it in zones if machine["name"] in (it["host"], it["guest"])], ends_of(machine)
    lines = []
    for _ in range(r.randrange(most + 1) if own or own_ends else 0):
        poses = [it["name"] for it in machine["poses"]]
        if own_ends and (not own or r.randrange(4) == 0):
            lines.append(f"advance {r.choice(own_ends)}")
        elif poses and r.randrange(3) == 0:
            lines.append(f"pose {r.choice(poses)}")
        else:
            zone = r.choice(own)
            lines.append(f"{r.choice(verbs_of(machine, zone))} {zone['name']}")
    return lines


def crowd(r):
    """The rows of a plan in which several guests give plates to one place of a host, or take them there."""
    guests = NAMES[1 : r.choice((3, 3, 4))]
    machines = [{"name": it, "places": [f"at_{it}"], "poses": [], "program": []} for it in (NAMES[0], *guests)]
    zones = [{"name": f"by_{it}", "host": NAMES[0], "guest": it} for it in guests]
    for zone in zones:
        for key, way in (("inward", (f"at_{zone['guest']}", f"at_{NAMES[0]}")), ("outward", (f"at_{NAMES[0]}", f"at_{zone['guest']}"))):
            if r.randrange(4):
                zone[key] = [*way]
    for posture in POSTURES:
        gives = {it["name"]: posture if r.randrange(6) else r.choice(POSTURES) for it in zones}
        machines[0]["poses"].append({"name": f"all_{posture}", "gives": gives})
    for row in machines:
        ends(r, row)
        row["program"] = program(r, row, zones, 4)
    return {"machine": machines, "zone": zones, **motor_rows(r, machines, zones)}


def is_too_wide(machines, zones):
    """Whether the word of a plan with these rows has more than 64 bits."""
    try:
        plans.Plan({"machine": machines, "zone": zones})
    except plans.Fault as why:
        return str(why).startswith("wide: ")
    return False


def plan(r, small=False):
    """The rows of a plan."""
    if r.randrange(5) == 0:
        return crowd(r)
    machines, names, places, zones = [], [], [], []
    count = r.choice((1, 2, 2, 3, 3)) if small else r.choice((1, 2, 3, 3, 3, 4, 4, 6, 15, 30))
    for _ in range(count):
        row = {"name": name(r, NAMES, names), "places": [], "poses": [], "program": []}
        row["places"] = [name(r, PLACES, places) for _ in range(r.choice((0, 1, 1, 2))) if len(places) < (4 if small else 13)]
        machines.append(row)
    taken = []
    # (zones that have fewer than five bits may be more)
    room = 43 if small or r.randrange(4) else 53
    for _ in range(r.choice((1, 2, 2, 3)) if small else r.choice((0, 1, 3, 6, 8, 10))):
        if count > 1 and 5 * (len(zones) + 1) + len(places) <= room:
            zones.append(zone_row(r, machines, taken))
    for row in machines:
        hosted = [it["name"] for it in zones if it["host"] == row["name"]]
        own = []
        row["poses"] = [pose_row(r, hosted, own) for _ in range(r.choice((1, 2, 3, 4)) if hosted else r.randrange(2))]
    while is_too_wide(machines, zones):
        gone = zones.pop()["name"]
        for pose in (pose for row in machines for pose in row["poses"]):
            pose["gives"].pop(gone, None)
    for row in machines:
        ends(r, row)
        row["program"] = program(r, row, zones, 4 if small else 8)
    return {"machine": machines, "zone": zones, **motor_rows(r, machines, zones)}


def motor_row(r, machine, zones, taken):
    """A motor that needs only what no other machine's call can change; seldom one that no state permits."""
    row = {"name": name(r, MOTORS, taken), "machine": machine["name"]}
    hosted = [it["name"] for it in zones if it["host"] == machine["name"]]
    visited = [it["name"] for it in zones if it["guest"] == machine["name"]]
    holds = {it: r.choice((*POSTURES, "any", "any")) for it in hosted if r.randrange(2)}
    holds |= {it: r.choice(("openin", "openout", "any", "any")) for it in visited if r.randrange(2)}
    stands = {it: r.choice(("closed", "openin", "openout", *POSTURES)) for it in hosted if it not in holds and r.randrange(3) == 0}
    full = {it: r.choice(("full", "empty")) for it in machine["places"] if r.randrange(3) == 0}
    lists = {key: [it for it, kind in full.items() if kind == key] for key in ("full", "empty")}
    return row | {key: value for key, value in {"holds": holds, "stands": stands, **lists}.items() if value or r.randrange(20) == 0}


def motor_rows(r, machines, zones):
    """The rows of motors, and of hazards between them: of half of the plans none."""
    if r.randrange(2):
        return {}
    names, titles = [], []
    motors = [motor_row(r, r.choice(machines), zones, names) for _ in range(r.choice((0, 1, 2, 3, 5, 8)))]
    hazards = [{"name": name(r, TITLES, titles), "motors": [r.choice(names), r.choice(names)]} for _ in range(r.randrange(6) if motors else 0)]
    return {"motor": motors, "hazard": hazards}


def rounds(r, document):
    """Gives the machines programs that end as they began: each claims a zone, does something there and lets it go."""
    for row in document["machine"]:
        lines = []
        for it in document["zone"]:
            if row["name"] == it["host"] and r.randrange(4):
                poses = [f"pose {it['name']}" for it in row["poses"]]
                lines += [f"claim {it['name']}", *(r.sample(poses, r.randrange(min(3, len(poses)) + 1))), f"release {it['name']}"]
            elif row["name"] == it["guest"] and r.randrange(4):
                lines += [f"claim {it['name']}", f"release {it['name']}"]
        row["program"] = lines + [f"advance {it}" for it in ends_of(row) if r.randrange(3) == 0]


def hand_over(r, document):
    """Gives the machines programs that end as they began, and hand zones over and back: a guest awaits each, and so does its host."""
    for row in document["machine"]:
        lines = []
        for it in document["zone"]:
            poses = [f"pose {other['name']}" for other in row["poses"] if it["name"] in other["gives"]]
            if row["name"] == it["host"] and poses:
                postures = [other["gives"][it["name"]] for other in row["poses"] if it["name"] in other["gives"]]
                moving = [pose for pose, posture in zip(poses, postures) if posture == "moving"]
                opening = [pose for pose, posture in zip(poses, postures) if posture.startswith("open")]
                begin = [f"claim {it['name']}", *r.sample(moving, min(1, len(moving))), r.choice(opening or poses)]
                lines += [*begin, f"yield {it['name']}", f"await {it['name']}", f"release {it['name']}"]
            elif row["name"] == it["guest"] and r.randrange(5):
                lines += [f"await {it['name']}", f"yield {it['name']}"]
        row["program"] = lines


def needs_known(r, facts, taken):
    """A motor that needs some of what its machine knows; seldom something else in one place."""
    hosted = [it for it in facts.plan.zones if facts.hosts(it)]
    holds = {it: r.choice((facts.postures.get(it, "any"), "any")) for it in sorted(facts.held) if r.randrange(3)}
    stands = {it: facts.postures[it] for it in hosted if it in facts.postures and it not in holds and r.randrange(3)}
    full = {it: is_full for it, is_full in facts.full.items() if r.randrange(2)}
    wrong = r.choice([*holds, *stands, *full, None]) if r.randrange(4) == 0 else None
    if wrong in full:
        full[wrong] = not full[wrong]
    elif wrong:
        (holds if wrong in holds else stands)[wrong] = r.choice(POSTURES if wrong in hosted else ("openin", "openout"))
    lists = {key: [it for it, is_full in full.items() if is_full == (key == "full")] for key in ("full", "empty")}
    row = {"name": name(r, MOTORS, taken), "machine": facts.machine}
    return row | {key: value for key, value in {"holds": holds, "stands": stands, **lists}.items() if value}


def run_line(r, facts, machine, document, taken):
    """A line that runs motors of a machine, old ones or new ones, which need what is known there, or what they like."""
    rows = document["motor"]
    for _ in range(r.choice((0, 1, 1, 1, 2))):
        if len(rows) < 64:
            rows.append(needs_known(r, facts, taken) if r.randrange(8) else motor_row(r, machine, document["zone"], taken))
    own = [it for it in rows if it["machine"] == machine["name"]]
    motors = own[-r.choice((1, 1, 2)) :] if r.randrange(6) else r.sample(own, min(len(own), r.randrange(1, 4)))
    names = [it["name"] for it in r.sample(motors, len(motors))]
    return [f"run {' '.join(names)} until {r.choice(machine['sensors'])}"] if names else []


def drives(r, document):
    """Gives machines sensors, and their programs lines that wait, and lines that run motors: of these most are permitted."""
    zones = [it["name"] for it in document["zone"]]
    for row in document["machine"]:
        taken = [*zones]
        row["sensors"] = [name(r, SENSORS, taken) for _ in range(r.choice((0, 1, 1, 2, 3)))]
        own = [it["name"] for it in document["zone"] if row["name"] in (it["host"], it["guest"])]
        for it in own + row["sensors"]:
            if r.randrange(8) == 0:
                row["program"].insert(r.randrange(len(row["program"]) + 1), f"await {it}")
    document.setdefault("motor", [])
    taken = [it["name"] for it in document["motor"]]
    rules = plans.Plan({key: document[key] for key in ("machine", "zone")})
    for row, steps in zip(document["machine"], rules.steps):
        facts, lines = plans.Facts(rules, row["name"]), []
        for line, step in zip(row["program"], steps):
            lines += run_line(r, facts, row, document, taken) if row["sensors"] and r.randrange(3) == 0 else []
            lines.append(line)
            facts.learn(*step)
        row["program"] = lines + (run_line(r, facts, row, document, taken) if row["sensors"] and r.randrange(2) else [])


def faults(r, document):
    """Lets some calls of programs stop their machines on refusals."""
    for row in document["machine"]:
        for at, line in enumerate(row["program"]):
            if r.randrange(4) == 0 and not line.startswith(("await ", "run ")):
                words = r.sample(plans.FAULTS, r.choice((1, 1, 1, 2, 2, 3, len(plans.FAULTS))))
                row["program"][at] = f"{line} or stop on {' '.join(words)}"


def items(row, key):
    """The list of a key; an empty one where there is none."""
    return row[key] if isinstance(row.get(key), list) else []


def spoil(r, document):
    """Puts a fault of some kind into the rows, which may have one already."""
    machines, zones = items(document, "machine"), items(document, "zone")
    poses = [it for row in machines for it in items(row, "poses")]
    machine = r.choice(machines) if machines else {}
    kinds = [spoil_key, spoil_value, spoil_name, spoil_program, spoil_program, spoil_many, spoil_for_c, spoil_ends]
    kinds += [spoil_drives] * 4 if any(items(it, "sensors") for it in machines) else []
    kinds += [spoil_faults] * 2 if items(machine, "program") else []
    kinds += [spoil_zone] * 2 if zones else []
    kinds += [spoil_pose] * 2 if poses else []
    kinds += [spoil_motor] * 4 if items(document, "motor") else []
    kinds += [spoil_hazard] * 2 if items(document, "hazard") else []
    r.choice(kinds)(r, document, machine, r.choice(zones) if zones else {}, r.choice(poses) if poses else {})


def spoil_key(r, document, machine, zone, pose):
    row = r.choice((document, machine, machine, zone, zone, pose, pose))
    if r.randrange(2):
        row[r.choice(("colour", "Name", "hosts", "give", "x y", ""))] = Raw(r.choice(VALUES))
    elif row:
        del row[r.choice([*row])]


def spoil_value(r, document, machine, zone, pose):
    row = r.choice((machine, machine, zone, zone, pose, pose, document))
    if row:
        row[r.choice([*row])] = Raw(r.choice(VALUES))


def spoil_name(r, document, machine, zone, pose):
    rows = items(document, "machine") + items(document, "zone")
    taken = ("watch", "free", "start", "claim", "pose", "stop", "inquire", "advance")
    others = [it["name"] for it in rows if "name" in it] or ["x"]
    r.choice((machine, machine, zone, pose))["name"] = r.choice((r.choice(WORDS), r.choice(WORDS), r.choice(others), r.choice(taken)))
    if places := items(machine, "places"):
        if r.randrange(3) == 0:
            places.insert(r.randrange(3), r.choice((r.choice(WORDS), r.choice(places))))


def spoil_ends(r, document, machine, zone, pose):
    """Adds a source or a sink, which may be right, or a line that advances some place, as right."""
    places = [it for row in items(document, "machine") for it in items(row, "places") if isinstance(it, str)] + ["nowhere"]
    own = items(machine, "places") or places
    if r.randrange(2):
        listed = machine.setdefault(r.choice(("sources", "sinks")), [])
        if isinstance(listed, list):
            listed.insert(r.randrange(len(listed) + 1), r.choice((*own, r.choice(places), r.choice(WORDS))))
    else:
        found = items(machine, "program")
        found.insert(r.randrange(len(found) + 1), f"advance {r.choice((*own, r.choice(places)))}")


def spoil_program(r, document, machine, zone, pose):
    lines = ("claim", "claim ", "claim  z1", " claim z1", "open z1", "claim nowhere", "pose nothing", "inquire z1", "stop", "resume", "")
    lines += ("advance", "advance ", "advance nowhere")
    name = zone.get("name", "z9")
    line = r.choice(lines) if r.randrange(3) == 0 else f"{r.choice((*VERBS, *VERBS, 'inquire', 'pose', 'advance'))} {name}"
    if r.randrange(12) == 0:
        machine["program"] = [f"claim {name}"] * r.choice((255, 256, 300))
    else:
        found = items(machine, "program")
        found.insert(r.randrange(len(found) + 1), line)


def spoil_faults(r, document, machine, zone, pose):
    """Adds refusals, which may be right, to a line of a program, also to a wait and to a run."""
    lines, word = items(machine, "program"), r.choice((*plans.FAULTS, *plans.ALWAYS, "heldd", "Held", "done", "", "x" * 45))
    more = ["", " ", f" {word}", f" {word}", f" held {word}", f" {word} shut", f" {word} {word}", f"  {word}", f" {word} ", f" held  {word}"]
    more += [f"ly {word}", f" {word} or stop on {word}", " held or stop on", f",{word}", f"\t{word}"]
    at = r.randrange(len(lines))
    if isinstance(lines[at], str) and not isinstance(lines[at], Raw):
        before = lines[at].partition(plans.OR_STOP)[0] if r.randrange(3) else lines[at]
        between = r.choice((*[plans.OR_STOP] * 6, " or  stop on", " or stop", " stop on"))
        lines[at] = f"{before}{between}{r.choice(more)}"


def spoil_drives(r, document, machine, zone, pose):
    """Spoils a machine's sensors, or puts a line that runs motors, or waits, into its program, which may be right."""
    sensors = machine.setdefault("sensors", [])
    others = [it for row in items(document, "machine") for it in items(row, "sensors")] + ["nowhere"]
    zones = [it["name"] for it in items(document, "zone") if isinstance(it.get("name"), str)] + ["nowhere"]
    if r.randrange(3) == 0 and isinstance(sensors, list):
        more = (r.choice(WORDS), r.choice(zones), r.choice(others), r.choice(sensors or ["until"]))
        sensors.insert(r.randrange(len(sensors) + 1), r.choice(more))
        sensors.extend(f"extra{it}" for it in range(r.choice((0, 0, 0, 0, 28, 31, 32))))
        return
    motors = [it["name"] for it in items(document, "motor") if isinstance(it.get("name"), str)] + ["nobody"]
    motor, sensor = r.choice(motors), r.choice(sensors if isinstance(sensors, list) and sensors and r.randrange(2) else others)
    right = [f"run {motor} until {sensor}", f"run {motor} {r.choice(motors)} until {sensor}", f"run {motor} {motor} until {sensor}"]
    right += [f"await {sensor}", f"await {r.choice(zones)}"]
    wrong = ["run", "run ", "await", "await ", f"await {sensor} ", f"await  {sensor}", f"run {motor}", f"run until {sensor}"]
    wrong += [f"run {motor}{it}" for it in (" until", " until ", f" to {sensor}", f"  until {sensor}", f"\tuntil {sensor}")]
    wrong += [f"run {motor} until{it}" for it in (f"  {sensor}", f" {sensor} ", f" {sensor} {sensor}")]
    wrong += [f"{it} until {sensor}" for it in (f"run  {motor}", f" run {motor}", f"Run {motor}", "run until", f"run {'x' * 40}")]
    line = r.choice(right if r.randrange(2) else wrong)
    if r.randrange(12) == 0:
        machine["program"] = [line] * r.choice((255, 256))
    else:
        found = items(machine, "program")
        found.insert(r.randrange(len(found) + 1), line)


def spoil_for_c(r, document, machine, zone, pose):
    """Adds poses, or sensors, of two machines that have one name for C, or almost."""
    if isinstance(document.get("machine"), list) and isinstance(machine.get("name"), str):
        own, other = r.choice(("q_p", "q_p", "q_p", "q_r")), {"name": f"{machine['name']}_q"}
        if r.randrange(2):
            items(machine, "poses").append({"name": own, "gives": {}})
            other["poses"] = [{"name": "p", "gives": {}}]
        else:
            machine["sensors"] = [*items(machine, "sensors"), own]
            other["sensors"] = ["p"]
        document["machine"].insert(r.randrange(len(document["machine"]) + 1), other)


def spoil_many(r, document, machine, zone, pose):
    kind = r.randrange(4)
    if kind == 0:
        items(document, "machine").extend({"name": f"extra{it}", "places": []} for it in range(r.choice((12, 27, 30, 31))))
    elif kind == 1:
        items(machine, "places").extend(f"extra{it}" for it in range(r.choice((5, 14, 16, 20, 33))))
    elif kind == 2 and zone:
        items(document, "zone").extend({**zone, "name": f"extra{it}"} for it in range(r.choice((3, 6, 8, 10, 11))))
    else:
        items(machine, "poses").extend({"name": f"extra{it}", "gives": {}} for it in range(r.choice((5, 60, 64, 65))))


def spoil_zone(r, document, machine, zone, pose):
    places = [place for row in items(document, "machine") for place in items(row, "places")] + ["nowhere"]
    kind = r.randrange(5)
    if kind == 0:
        zone["guest"] = zone.get("host", "nobody")
    elif kind < 3:
        zone[r.choice(("host", "guest"))] = r.choice((machine.get("name", "nobody"), "nobody", "", "x" * 50))
    else:
        zone[r.choice(("inward", "outward"))] = [r.choice(places) for _ in range(r.choice((2, 2, 2, 2, 1, 3)))]


def spoil_pose(r, document, machine, zone, pose):
    if isinstance(pose.get("gives"), dict):
        zones = [it["name"] for it in items(document, "zone") if "name" in it and not isinstance(it["name"], Raw)] + ["nowhere"]
        pose["gives"][r.choice(zones)] = r.choice((*POSTURES, "open", "Moving", "", "x" * 45))


def spoil_motor(r, document, machine, zone, pose):
    """Spoils a motor: a key or a value, its name or its machine, or what it needs."""
    motor, kind = r.choice(items(document, "motor")), r.randrange(10)
    zones = [it["name"] for it in items(document, "zone") if isinstance(it.get("name"), str)] + ["nowhere"]
    places = [place for row in items(document, "machine") for place in items(row, "places")] + ["nowhere"]
    names = [it["name"] for it in items(document, "motor") if isinstance(it.get("name"), str)]
    if kind == 0:
        motor[r.choice(("colour", "motors", "zone"))] = Raw(r.choice(VALUES))
    elif kind == 1:
        motor.pop(r.choice([*motor]))
    elif kind == 2:
        motor[r.choice(("name", "machine", "holds", "stands", "full", "empty"))] = Raw(r.choice(VALUES))
    elif kind == 3:
        motor["name"] = r.choice((*WORDS, *names, *names))
    elif kind == 4:
        motor["machine"] = r.choice((machine.get("name", "nobody"), "nobody", "x" * 50))
    elif kind == 5:
        items(document, "motor").extend({**motor, "name": f"extra{it}"} for it in range(r.choice((5, 56, 60, 64))))
    elif kind < 8:
        table = motor.setdefault(r.choice(("holds", "stands")), {})
        if isinstance(table, dict):
            table[r.choice(zones)] = r.choice((*POSTURES, *POSTURES, "any", "Any", "x" * 45))
    else:
        listed = motor.setdefault(r.choice(("full", "empty")), [])
        if isinstance(listed, list):
            listed.insert(r.randrange(len(listed) + 1), r.choice(places))


def spoil_hazard(r, document, machine, zone, pose):
    """Spoils a hazard: a key or a value, its name or its motors."""
    hazard, kind = r.choice(items(document, "hazard")), r.randrange(6)
    names = [it["name"] for it in items(document, "hazard") if isinstance(it.get("name"), str)]
    motors = [it["name"] for it in items(document, "motor") if isinstance(it.get("name"), str)] + ["nobody"]
    if kind == 0:
        hazard[r.choice(("colour", "motor", "machine"))] = Raw(r.choice(VALUES))
    elif kind == 1:
        hazard.pop(r.choice([*hazard]))
    elif kind == 2:
        hazard[r.choice(("name", "motors"))] = Raw(r.choice(VALUES))
    elif kind == 3:
        hazard["name"] = r.choice((*WORDS, "a: b", "a" * 60, "a" * 61, "~", *names, *names))
    elif kind == 4:
        items(document, "hazard").extend({**hazard, "name": f"extra {it}"} for it in range(r.choice((5, 60, 64))))
    else:
        hazard["motors"] = [r.choice(motors) for _ in range(r.choice((2, 2, 2, 1, 3)))]


class Text:
    """A document's lines, and the line of each place: of its heads, keys and items, by the steps that lead there."""

    def __init__(self, r):
        self.r, self.rows, self.lines = r, [""], {}

    def mark(self, steps):
        """Notes that these steps lead to what comes next."""
        for count in range(1, len(steps) + 1):
            self.lines.setdefault(tuple(steps[:count]), len(self.rows))

    def put(self, text):
        self.rows[-1] += text

    def end(self):
        self.rows.append("")

    def gap(self):
        """Ends a line, or goes on after a blank."""
        if self.r.randrange(3) == 0:
            self.end()
            self.put("  ")
        else:
            self.put(" ")


def quoted(r, text):
    """A text as TOML writes it."""
    if r.randrange(5) == 0 and "'" not in text and text.isprintable():
        return f"'{text}'"
    return '"' + text.replace("\\", "\\\\").replace('"', '\\"').replace("\t", "\\t") + '"'


def key_text(r, key):
    is_bare = key and all(it.isascii() and (it.isalnum() or it in "_-") for it in key)
    return quoted(r, key) if not is_bare or r.randrange(20) == 0 else key


def put_value(text, value, steps):
    """Writes a value of a key, of which the items are marked."""
    r = text.r
    if isinstance(value, Raw):
        text.put(value)
    elif isinstance(value, bool):
        text.put("true" if value else "false")
    elif isinstance(value, str):
        text.put(quoted(r, value))
    elif isinstance(value, dict):
        put_table(text, value, steps)
    else:
        text.put("[")
        for at, it in enumerate(value):
            text.gap()
            text.mark([*steps, at])
            put_value(text, it, [*steps, at])
            text.put("," if at + 1 < len(value) or r.randrange(3) == 0 else "")
        text.gap()
        text.put("]")


def put_table(text, table, steps):
    """Writes a table in braces, on one line."""
    text.put("{")
    for at, (key, value) in enumerate(table.items()):
        text.put(" ")
        text.mark([*steps, key])
        text.put(f"{key_text(text.r, key)} = ")
        if isinstance(value, list):
            text.put("[" + ", ".join(quoted(text.r, it) if not isinstance(it, dict) else "{}" for it in value) + "]")
            for item in range(len(value)):
                text.mark([*steps, key, item])
        else:
            put_value(text, value, [*steps, key])
        text.put("," if at + 1 < len(table) else "")
    text.put(" }")


def put_row(text, kind, number, row):
    """Writes a row under its head, as [[machine]] or [[zone]]."""
    r = text.r
    text.mark([kind, number])
    text.put(f"[[{kind}]]" + r.choice(("", "", " # it")))
    text.end()
    poses = row.get("poses")
    under = kind == "machine" and isinstance(poses, list) and poses and r.randrange(3) == 0
    for key, value in row.items():
        if under and key == "poses" or value == [] and r.randrange(2):
            continue
        text.mark([kind, number, key])
        text.put(f"{key_text(r, key)}{r.choice((' = ', '=', ' =  '))}")
        put_value(text, value, [kind, number, key])
        text.end()
        if r.randrange(8) == 0:
            text.put("# a note")
            text.end()
    for at, pose in enumerate(poses if under else []):
        put_pose(text, [kind, number, "poses", at], pose)


def put_pose(text, steps, pose):
    """Writes a pose under a head of its own; what it gives perhaps by dotted keys."""
    text.mark(steps)
    text.put("[[machine.poses]]")
    text.end()
    for key, value in pose.items():
        if key == "gives" and isinstance(value, dict) and value and text.r.randrange(2):
            for zone, posture in value.items():
                text.mark([*steps, key, zone])
                text.put(f"gives.{key_text(text.r, zone)} = {quoted(text.r, posture)}")
                text.end()
            continue
        text.mark([*steps, key])
        text.put(f"{key_text(text.r, key)} = ")
        put_value(text, value, [*steps, key])
        text.end()


def document_text(r, document):
    """The document as a text, and the lines of its places."""
    text = Text(r)
    for key, value in document.items():
        if key not in KINDS or isinstance(value, Raw):
            text.mark([key])
            text.put(f"{key_text(r, key)} = ")
            put_value(text, value, [key])
            text.end()
    rows = [(kind, at, row) for kind in KINDS for at, row in enumerate(items(document, kind))]
    if r.randrange(10) == 0:
        rows.sort(key=lambda it: it[0], reverse=True)
    for kind, at, row in rows:
        put_row(text, kind, at, row)
        if r.randrange(2):
            text.end()
    return "\n".join(text.rows), text.lines


def start(r, places):
    """The fields of a script's record 0."""
    fields = ["start", "".join(r.choice("01") for _ in range(places))]
    if r.randrange(3) == 0:
        fields.append(r.choice(("0", "7", "1048575", "1048574", "1048570", "0000007")))
    if r.randrange(25) == 0:
        fields[1:] = r.choice(([], [fields[1] + "0"], [fields[1][1:]], ["2" * places], [fields[1], "1048576"], [fields[1], ""]))
    if r.randrange(60) == 0:
        fields += r.choice((["1", "1"], ["-1"], ["+1"], [" 5"], ["00000001"], ["x", ""]))
    return fields


def calls_of(r, document):
    """All calls of parties and of poses' machines, those that move plates more often."""
    calls = [(row["name"], "pose", it["name"]) for row in document["machine"] for it in row["poses"]] * 2
    calls += [(row["name"], "advance", it) for row in document["machine"] for it in ends_of(row)] * 2
    for zone in document["zone"]:
        verbs = ("claim", "claim", "give", "give", "give", "take", "take", "yield", "release")
        calls += [(zone[party], verb, zone["name"]) for party in ("host", "guest") for verb in verbs]
    return calls


def done_call(r, rules, state, calls, likes, tries):
    """One of these calls, and the state after it: of so many the first one with a verb it likes that is done, or else that is."""
    changing = None
    for call in r.sample(calls, min(tries, len(calls))):
        _, after = rules.reply(state, *call)
        if after != state and call[1] in likes:
            return call, after
        if after != state and (not changing or changing[0][1] == "release" and r.randrange(4)):
            changing = call, after
    return changing or (call, after)


def script(r, document):
    """A script for a plan, as bytes: calls of which most are done, and others."""
    rules, machines = plans.Plan(document), [it["name"] for it in document["machine"]]
    records = [start(r, len(rules.keeper))]
    digits = "".join(records[0][1:2]).ljust(len(rules.keeper), "0")
    state, calls, likes = rules.start(digits), calls_of(r, document), r.choice((("give",), ("give", "take")))
    for _ in range(r.choice((0, 3, 10, 30, 60))):
        form = r.randrange(16)
        if form < 12 and calls:
            call, state = done_call(r, rules, state, calls, likes, 30 if form < 9 else 1)
            records.append([*call])
            continue
        caller = r.choice((*machines, "watch"))
        if form == 12:
            call = ("watch" if r.randrange(5) else caller, r.choice(("resume", "resume", "resume", "stop")), None)
        elif form == 13 and rules.keeper:
            call = (caller, "advance", r.choice([*rules.keeper]))
        elif form < 15 and rules.zones or not rules.poses:
            call = (caller, r.choice(("inquire", "inquire", *VERBS)), r.choice(rules.zones or ["z1"]))
        else:
            call = (caller, "pose", r.choice([it for _, it in rules.poses]))
        records.append([it for it in call if it])
        if call[1] in ("stop", "resume", "pose", "advance") or call[2] in rules.zones:
            state = rules.reply(state, *call)[1]
    if r.randrange(12) == 0:
        words = [*machines, "claim", "pose", "stop", "", " ", "z1", "watch", "free", "CLAIM", "advance"]
        records.append([r.choice(words) for _ in range(r.randrange(1, 5))])
    end = r.choice(("\n", "\n", "\n", "\r\n", "\r", "\n\n"))
    text = end.join(",".join(f'"{it}"' if r.randrange(40) == 0 and at else it for it in row) for at, row in enumerate(records))
    return (text + (end if r.randrange(5) else "")).encode()

// The production cell: what its lines say, its picture and its collisions. player.js plays them.

const MACHINES = ["feed", "table", "robot", "press", "deposit", "crane", "watch"];
const LETTERS = "ftrpdcw", PLACES = 10;

// What a machine's part in a line is: axes, plates on a belt, switches.
const PARTS = {
  feed: ["feedEntry", "feedLast", "feedRuns"], table: ["lift", "turn"],
  robot: ["arm1", "arm2", "rotation", "magnet1", "magnet2"], press: ["press"],
  deposit: ["depositEntry", "depositLast", "depositRuns"], crane: ["travel", "gripper", "magnet"], watch: [],
};
const ENDS = {lift: 600, turn: 500, arm1: 1000, arm2: 1000, rotation: 2000, press: 1000, travel: 2000, gripper: 1000};

// The picture: the robot's axis, what its arms reach, and the ends of the belts.
const ROBOT = [262, 250], TABLE = [330, 132], PRESS = [104, 250], DEPOSIT = [330, 368], END = 680;
// A zone with its place in the picture, its label's, and the way of an arrow from host to guest.
const placed = (name, host, guest, at, r, label, way) => ({name, host, guest, at, r, label, way});
const ZONES = [
  placed("z1", "table", "feed", [370, 132], 34, [484, 92], [360, 158, 440, 206, 520, 158]),
  placed("z2", "table", "robot", [310, 167], 30, [214, 148], [356, 166, 386, 190, 398, 228]),
  placed("z3", "press", "robot", PRESS, 46, [104, 312], [152, 270, 188, 302, 216, 286]),
  placed("z4", "deposit", "robot", DEPOSIT, 40, [226, 372], [402, 344, 402, 308, 402, 272]),
  placed("z5", "deposit", "crane", [END, 368], 37, [664, 424], [570, 344, 570, 308, 570, 272]),
  placed("z6", "feed", "crane", [END, 132], 37, [664, 76], [570, 156, 570, 192, 570, 228]),
];
const CARDS = {
  feed: [500, 40], table: [330, 40], robot: [402, 250], press: [92, 182], deposit: [480, 424], crane: [570, 250],
  watch: [92, 40],
};
// From which place to which a plate goes in a zone, by the zone's posture; places are numbered from 0.
const WAYS = {
  "z1 openin": [1, 2], "z2 openout": [2, 3], "z3 openin": [3, 4], "z3 openout": [5, 6], "z4 openin": [6, 7],
  "z5 openout": [8, 9], "z6 openin": [9, 0],
};
const WORK = {feed: [0, 1], deposit: [7, 8], press: [4, 5]};

// Machines that aren't marked by their first letter; whether who was refused asks it again.
const MARKS = {}, ASK_AGAIN = true;
const NAMES = {place: "places 10 to 1", stopped: "the cell"};
const LEGEND = "A plate is grey as a blank and brown with a ring once forged; a thick circle is a magnet that is on.";

const COLLISIONS = [
  "an arm with the press", "the table with an arm", "the deposit belt", "the feed belt", "the crane", "the robot",
  "a plate that misses the table", "a plate that falls", "an axis with its end",
];

function setPart(frame, machine, part) {
  frame.at = {...frame.at};
  frame.motor = {...frame.motor};
  part.forEach((text, i) => {
    const name = PARTS[machine][i];
    frame.at[name] = text === "" ? null : parseInt(text, 10);
    frame.motor[name] = text.endsWith("+") ? 1 : text.endsWith("-") ? -1 : 0;
  });
}

function firstFrame(line) {
  const [, word, ...machines] = line.split(";");
  const frame = {steps: MACHINES.map(() => ""), asked: MACHINES.map(() => ["", ""]), waits: {}, call: "", answer: ""};
  frame.word = BigInt("0x" + word);
  frame.state = unpacked(frame.word);
  machines.forEach((text, i) => {
    const [step, ...part] = text.split(",");
    frame.steps[i] = step;
    setPart(frame, MACHINES[i], part);
  });
  frame.plates = firstPlates(frame.state);
  return frame;
}

function nextFrame(before, line) {
  const [letter, step, call, answer, word, part] = line.split(";");
  const i = LETTERS.indexOf(letter.toLowerCase());
  const frame = {...before, machine: MACHINES[i]};
  if (line.length > 1) {
    frame.asked = replaced(before.asked, i, [call, answer]);
    if (step) frame.steps = replaced(before.steps, i, step);
    if (part) setPart(frame, MACHINES[i], part.split(","));
    if (word) {
      frame.word = BigInt("0x" + word);
      frame.state = unpacked(frame.word);
    }
  }
  [frame.call, frame.answer] = frame.asked[i];
  const isOn = (name) => frame.motor[name] || (name.endsWith("Runs") && frame.at[name]);
  frame.drives = !frame.call && PARTS[frame.machine].some(isOn);
  if (frame.answer === "done") frame.plates = movedPlates(before, frame);
  // A machine waits while its step stays where it was refused, or where it looked and saw nothing for it.
  const stays = frame.call && frame.steps[i] === before.steps[i] && !["done", "busy", "memory"].includes(frame.answer);
  frame.waits = waitsAfter(before, frame, stays, frame.steps[i].includes("!"));
  return frame;
}

// ---- Collisions, as docs/PLANT.md has them: in each state, and between set and move.

function collisionIn(at, motor) {
  const turned = (low, high) => at.rotation >= low && at.rotation <= high;
  const rests = (low, high) => !motor.press && at.press >= low && at.press <= high;
  const out1 = at.arm1 > 50, out2 = at.arm2 > 50, isDown = at.gripper < 800, tableMoves = motor.lift || motor.turn;
  const found = [
    (out1 && turned(1400, 1600) && !rests(490, 510)) || (out2 && turned(500, 700) && !rests(0, 10)),
    tableMoves && out1 && turned(200, 400),
    at.depositRuns && ((out2 && turned(1700, 1900)) || (isDown && at.travel <= 200) || at.depositLast !== null),
    at.feedRuns && isDown && at.travel >= 1800,
    motor.travel && isDown,
    motor.rotation && (out1 || out2),
    at.feedRuns && at.feedLast !== null && (tableMoves || at.lift > 10 || at.turn > 20),
  ];
  return found.findIndex((is) => is) + 1;
}

// A magnet that goes off where no plate may be put, and an axis that is driven beyond its end.
function collisionOnSet(before, set, motor, machine) {
  const near = (name, low, high) => set[name] >= low && set[name] <= high;
  const drops = (name) => before[name] && !set[name];
  if (drops("magnet1") && !(near("rotation", 1460, 1540) && near("arm1", 760, 840))) return 8;
  if (drops("magnet2") && !(near("rotation", 1760, 1840) && near("arm2", 560, 640))) return 8;
  if (drops("magnet") && !(set.travel >= 1990 && near("gripper", 250, 350))) return 8;
  const isDriven = (name) => (motor[name] > 0 && set[name] >= ENDS[name]) || (motor[name] < 0 && set[name] <= 0);
  return PARTS[machine].some((name) => ENDS[name] && isDriven(name)) ? 9 : 0;
}

function collisionAfter(before, frame) {
  if (frame.at === before.at && !frame.drives) return 0;
  const set = {...frame.at};
  for (const name of Object.keys(ENDS)) set[name] = before.at[name];
  const onSet = collisionIn(set, frame.motor) || collisionOnSet(before.at, set, frame.motor, frame.machine);
  return onSet || collisionIn(frame.at, frame.motor);
}

// ---- The film: its frames up to the first collision, and what it says of itself.

function filmOf(text) {
  const [start, ...lines] = text.trim().split("\n"), cut = lines.length && lines[lines.length - 1].startsWith("cut ");
  const film = {frames: [firstFrame(start)]}, turns = cut && lines.pop().slice(4);
  film.collision = collisionIn(film.frames[0].at, film.frames[0].motor);
  for (let k = 0; k < lines.length && !film.collision; k++) {
    film.frames.push(nextFrame(film.frames[k], lines[k]));
    film.collision = collisionAfter(film.frames[k], film.frames[k + 1]);
  }
  film.last = film.frames.length - 1;
  film.note = cut ? `The schedule has ${turns} turns: the film shows the first ${film.last}.` : "";
  return film;
}

// ---- The picture.

const angleOf = (at, arm) => (at.rotation / 10 + (arm === 1 ? 30 : 120)) * Math.PI / 180;
const onArm = (at, arm, r) => [ROBOT[0] + r * Math.cos(angleOf(at, arm)), ROBOT[1] - r * Math.sin(angleOf(at, arm))];
const tip = (at, arm) => onArm(at, arm, 70 + at["arm" + arm] * 0.11);
const craneAt = (at) => [END, DEPOSIT[1] - at.travel / 2000 * (DEPOSIT[1] - TABLE[1])];
const onFeed = (p) => [p < 900 ? END - p * 0.32 : 392 - (Math.min(p, 1000) - 900) * 0.62, TABLE[1]];
const onDeposit = (p) => [DEPOSIT[0] + Math.min(p, 1000) * 0.35, DEPOSIT[1]];

// Plates lie where they are: on an arm or at the gripper while its magnet is on, else where they were put.
function platesDrawn({at, plates, state}) {
  const arm1 = at.magnet1 && tip(at, 1), arm2 = at.magnet2 && tip(at, 2), gripper = at.magnet && craneAt(at);
  const opensOut = state.zones[2].posture === "openout";
  const places = [
    onFeed(at.feedEntry || 0), onFeed(at.feedLast || 0), TABLE, arm1 || PRESS, PRESS, PRESS, arm2 || DEPOSIT,
    onDeposit(at.depositEntry || 0), onDeposit(at.depositLast || 0), gripper || onFeed(0),
  ];
  const zones = [TABLE, arm1 || TABLE, (opensOut && arm2) || PRESS, DEPOSIT, gripper || onDeposit(1000), onFeed(0)];
  const isForged = (i) => [5, 6, 7, 8, 13, 14].includes(i) || (i === 9 && gripper) || (i === 12 && opensOut);
  return [...places, ...zones].map((place, i) => plate(place, plates[i], isForged(i))).join("");
}

function belt(machine, x1, x2, y, runs, direction, shift) {
  let text = rect(x1, y - 21, x2 - x1, 42, 8, paint(BELT, colour(machine), runs ? 4 : 1.5));
  for (let x = x1 + 12 + ((shift % 26) + 26) % 26; x < x2 - 10; x += 26) {
    const d = `M${x - 4 * direction} ${y - 9}l${8 * direction} 9l${-8 * direction} 9`;
    text += path(d, paint("none", runs ? colour(machine) : "var(--line)", 2.5));
  }
  return text;
}

function barrier(y, x1, x2, ...plates) {
  const isOn = plates.some((p) => p !== null && p >= 900 && p < 1000);
  const style = {"fill-opacity": 0.3, "stroke-dasharray": "2 3"};
  return rect(x1, y - 26, x2 - x1, 52, 0, paint(isOn ? ALARM : "none", ALARM, 1, style));
}

function belts({at}) {
  const fed = -0.32 * (at.feedEntry || at.feedLast || 0), put = 0.35 * (at.depositEntry || at.depositLast || 0);
  return belt("feed", 362, END + 36, TABLE[1], at.feedRuns, -1, fed)
    + barrier(TABLE[1], onFeed(999)[0], onFeed(900)[0], at.feedEntry, at.feedLast)
    + belt("deposit", DEPOSIT[0] - 12, END + 36, DEPOSIT[1], at.depositRuns, 1, put)
    + barrier(DEPOSIT[1], onDeposit(900)[0], onDeposit(999)[0], at.depositEntry, at.depositLast);
}

function heights(x, y, height, value, end, marks, machine) {
  const level = (v) => y + height - v / end * height;
  const lines = Object.entries(marks).map(([name, v]) =>
    path(`M${x - 3} ${level(v)}h15`, paint("none", SOFT)) + write(x - 6, level(v) + 4, "small", name, "end", SOFT));
  return rect(x, y, 9, height, 3, paint(BELT, SOFT)) + lines.join("")
    + rect(x - 4, level(value) - 4, 17, 8, 2, paint(colour(machine), INK));
}

function tableDrawn({at}) {
  const [x, y] = TABLE, angle = -at.turn / 500 * 120 * Math.PI / 180, dx = Math.cos(angle), dy = -Math.sin(angle);
  return circle(TABLE, 29, paint(CARD, colour("table"), 3))
    + path(`M${x + 19 * dx} ${y + 19 * dy}L${x + 29 * dx} ${y + 29 * dy}`, paint("none", INK, 6))
    + heights(276, 80, 48, at.lift, 600, {belt: 0, arm: 600}, "table");
}

// The press from above, and beside it from the side.
function pressDrawn({at, plates, state}) {
  const [x, y] = PRESS, opensOut = state.zones[2].posture === "openout";
  const isHanded = plates[12] && !(opensOut && at.magnet2), isPut = plates[3] && !at.magnet1;
  return rect(x - 34, y - 34, 68, 68, 6, paint(CARD, colour("press"), 3))
    + pressFromSide(444 - at.press / 1000 * 76, plates[4] || plates[5] || isHanded || isPut, plates[5] || opensOut);
}

function pressFromSide(top, hasPlate, isForged) {
  const marks = Object.entries({forge: 368, "arm 1": 406, "arm 2": 444}).map(([name, y]) =>
    path(`M26 ${y}h76`, paint("none", SOFT)) + write(105, y + 4, "small", name, "start", SOFT));
  return rect(18, 336, 136, 126, 6, paint(CARD, "var(--line)")) + rect(30, 342, 66, 14, 3, paint(SOFT)) + marks.join("")
    + rect(56, top, 14, 456 - top, 0, paint(BELT, SOFT)) + rect(30, top, 66, 10, 3, paint(colour("press"), INK))
    + (hasPlate ? rect(46, top - 8, 34, 7, 0, paint(plateColour(isForged), INK)) : "");
}

function armDrawn(at, arm, width) {
  const end = tip(at, arm), [x, y] = onArm(at, arm, 46), isOn = at["magnet" + arm];
  const line = paint("none", colour("robot"), width, {"stroke-linecap": "round"});
  return path(`M${ROBOT}L${end}`, line) + circle(end, 18, paint("none", isOn ? INK : colour("robot"), isOn ? 5 : 2))
    + write(x, y + 5, "number", arm, "middle", "#000");
}

function robotDrawn({at}) {
  return armDrawn(at, 2, 15) + armDrawn(at, 1, 19) + circle(ROBOT, 24, paint(CARD, colour("robot"), 5));
}

function craneDrawn({at}) {
  const [x, y] = craneAt(at), own = colour("crane");
  return path(`M${END} ${TABLE[1] - 34}V${DEPOSIT[1] + 34}`, paint("none", SOFT, 3))
    + rect(x - 27, y - 11, 80, 22, 5, paint(own, own, 2, {"fill-opacity": 0.5}))
    + circle([x, y], 19, paint("none", at.magnet ? INK : own, at.magnet ? 5 : 2))
    + heights(750, 176, 140, at.gripper, 1000, {plate: 100, feed: 300, travel: 900}, "crane");
}

// Where the collision is, in red.
function burst(number, {at, machine}) {
  const arm = (n) => at["arm" + n] > 50, lost = machine === "crane" ? craneAt(at) : tip(at, arm(2) ? 2 : 1);
  const belt = at.gripper < 800 ? onDeposit(1000) : DEPOSIT;
  const [x, y] = [null, PRESS, TABLE, belt, onFeed(0), craneAt(at), ROBOT, TABLE, lost][number] || CARDS[machine];
  const points = Array.from({length: 24}, (_, i) => {
    const r = i % 2 ? 52 : 66, angle = i * Math.PI / 12;
    return [x + r * Math.cos(angle), y + r * Math.sin(angle)];
  });
  return tag("polygon", {points: points.join(" "), ...paint(ALARM, ALARM, 5, {"fill-opacity": 0.25})});
}

function picture(frame, collision) {
  const things = [tableDrawn, pressDrawn, robotDrawn, craneDrawn, platesDrawn].map((drawn) => drawn(frame)).join("");
  return pictureOf(frame, belts(frame), things + (collision ? burst(collision, frame) : ""));
}

// The last lines of a report.
function axesOf({at}) {
  const axes = ["press", "arm1", "arm2", "rotation", "lift", "turn"].map((name) => `${name} ${at[name]}`).join(" ");
  return [`axes ${axes} crane ${at.travel} gripper ${at.gripper}`];
}

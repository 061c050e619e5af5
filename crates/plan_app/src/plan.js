// A plan: its plant's picture, and what its lines say. player.js plays them.

const PLAN = JSON.parse(document.getElementById("plan").textContent);
const MACHINES = [...PLAN.machines, "watch"], PLACES = PLAN.places.length, WORK = {}, COLLISIONS = [];
// (a page of a script has no programs)
const PROGRAMS = PLAN.programs, ASK_AGAIN = PROGRAMS.length > 0;
const NAMES = {place: PLACES > 1 ? `places ${PLACES} to 1` : "place 1", stopped: "the plant"};
// Refusals for which no wait helps.
const NO_WAITS = ["notparty", "nopose", "already", "jump", "worn", "notstopped"];
const [RUNS, MAY_RUN, MAY_NOT] = "\u25a0\u25a1\u00b7";
const LEGEND = "A card is a machine, with the line of its program at which it stands. The circles beside it are its "
  + `places; on its other side are its motors: ${RUNS} runs, by that line; ${MAY_RUN} may run, by the word; ${MAY_NOT} `
  + "may not. From a zone a full line goes to its host, a dashed one to its guest. What plays a page is tested, not "
  + "proved.";

// Colours of machines, and what is written on them: those of the cell, and others that differ from them.
const HUES = ("#0072b2/#fff #e69f00/#000 #009e73/#000 #cc79a7/#000 #56b4e9/#000 #d55e00/#000 #8a6fd1/#000 #b5a300/#000 "
  + "#8c564b/#fff #5b7f2b/#fff #e377c2/#000 #4f5fb0/#fff #c49a6c/#000 #2ca0a0/#000 #999999/#000").split(" ");
PLAN.machines.forEach((name, i) => {
  const [of, on] = HUES[i].split("/");
  document.documentElement.style.setProperty(`--of-${name}`, of);
  document.documentElement.style.setProperty(`--on-${name}`, on);
});

// A mark for each machine: its first letter, or the first letters of its words, or its number.
const MARKS = {};
MACHINES.forEach((name, i) => {
  const words = name.split("_").filter((it) => it), letters = words.map((it) => it[0]).join("").slice(0, 2);
  const isOfOthers = (mark) => mark.length === 1 && MACHINES.some((it) => it !== name && it.startsWith(mark));
  const isFree = (mark) => !isOfOthers(mark) && !Object.values(MARKS).includes(mark.toUpperCase());
  MARKS[name] = [name[0], letters, name.slice(0, 2), String(i + 1)].find(isFree).toUpperCase();
});

// The machines in an order, round an ellipse, in which parties of a zone stand close to one another.
function around() {
  const length = (order) => PLAN.zones.reduce((sum, {host, guest}) => {
    const steps = Math.abs(order.indexOf(host) - order.indexOf(guest));
    return sum + Math.min(steps, order.length - steps) ** 2;
  }, 0);
  let order = PLAN.machines.map((_, i) => i);
  for (let isBetter = true; isBetter;) {
    isBetter = false;
    for (let one = 1; one < order.length; one++) {
      for (let other = one + 1; other < order.length; other++) {
        const tried = order.slice();
        [tried[one], tried[other]] = [tried[other], tried[one]];
        if (length(tried) < length(order)) [order, isBetter] = [tried, true];
      }
    }
  }
  return order.map((it) => PLAN.machines[it]);
}

// Machines stand on an ellipse, in an order in which their zones are short.
const MIDDLE = [395, 235], CARDS = {watch: [84, 22]};
around().forEach((machine, i, {length}) => {
  const turned = length === 2 ? Math.PI : length % 2 ? -Math.PI / 2 : -Math.PI / 2 - Math.PI / length;
  const angle = turned + 2 * Math.PI * i / length;
  CARDS[machine] = [MIDDLE[0] + 308 * Math.cos(angle), MIDDLE[1] + 190 * Math.sin(angle)];
});

// Where the places of a machine are: in a row beside its card, towards the middle.
const STANDS = PLAN.places.map(({keeper}, i) => {
  const own = PLAN.places.filter((it) => it.keeper === keeper).length;
  const number = PLAN.places.slice(0, i).filter((it) => it.keeper === keeper).length;
  const [x, y] = CARDS[PLAN.machines[keeper]];
  return [x + (number - (own - 1) / 2) * 62, y + (y > MIDDLE[1] + 1 ? -58 : 38)];
});

// Where the motors of a machine are told: on the other side of its card.
const motorsAt = ([x, y]) => [Math.min(Math.max(x, 100), 690), y > MIDDLE[1] + 1 ? y + 33 : y - 24];
const motorsOf = (machine) => PLAN.motors.filter((it) => PLAN.machines[it.machine] === machine);

const between = ([x1, y1], [x2, y2], part) => [x1 + (x2 - x1) * part, y1 + (y2 - y1) * part];
const aside = ([x, y], [dx, dy], by) => [x + dx * by, y + dy * by];
const box = ([x, y], width, height) => ({x, y, width, height});
// How much of two boxes lies on one another.
const shared = (one, other) =>
  Math.max(0, (one.width + other.width) / 2 - Math.abs(one.x - other.x))
  * Math.max(0, (one.height + other.height) / 2 - Math.abs(one.y - other.y));
const RADIUS = 30;
// What is drawn already: cards, places with their names, zones and labels.
const taken = [
  ...PLAN.machines.map((it) => box(CARDS[it], 170, 44)), ...STANDS.map(([x, y]) => box([x, y + 8], 62, 52)),
  ...PLAN.machines.filter((it) => motorsOf(it).length).map((it) => box(motorsAt(CARDS[it]), 200, 16)),
];

// A zone lies between its host and its guest, its label below or above it, on as little of the rest as may be.
function zoneBetween(zone, from, to) {
  const length = Math.hypot(to[0] - from[0], to[1] - from[1]);
  const across = [(from[1] - to[1]) / length, (to[0] - from[0]) / length];
  let best = null;
  for (const part of [0.5, 0.44, 0.56, 0.38, 0.62, 0.32, 0.68]) {
    for (const by of [0, 24, -24, 50, -50, 76, -76]) {
      for (const below of [46, -46]) {
        const at = aside(between(from, to, part), across, by), label = [at[0], at[1] + below];
        const boxes = [box(at, 2 * RADIUS + 8, 2 * RADIUS + 8), box(label, labelWidth(zone) + 8, 30)];
        const wide = Math.max(0, 74 - at[0], at[0] - 716, 14 - label[1], label[1] - 456);
        const cost = boxes.reduce((sum, it) => taken.reduce((s, other) => s + shared(it, other), sum), 0)
          + 400 * Math.abs(part - 0.5) + Math.abs(by) + 100 * wide;
        if (!best || cost < best.cost) best = {cost, at, label, boxes};
      }
    }
  }
  taken.push(...best.boxes);
  return {...zone, at: best.at, r: RADIUS, label: best.label, across};
}

// The way of an arrow goes beside the zone, over as little of the rest as may be, from card to card.
function wayOf({host, guest, at, across}) {
  const from = CARDS[host], to = CARDS[guest];
  const others = taken.filter(({x, y}) => ![from, to].some((it) => it[0] === x && it[1] === y));
  const isIn = ([x, y], it) => Math.abs(x - it.x) < it.width / 2 && Math.abs(y - it.y) < it.height / 2;
  const ways = [100, -100, 140, -140, 180, -180, 230, -230].map((by) => {
    const bend = aside(at, across, by), parts = Array.from({length: 19}, (_, i) => (i + 1) / 20);
    const points = parts.map((part) => between(between(from, bend, part), between(bend, to, part), part));
    const crossed = points.filter((it) => others.some((other) => isIn(it, other))).length;
    const outside = points.filter(([x, y]) => x < 4 || x > 786 || y < 4 || y > 466).length;
    return {bend, cost: 100 * crossed + 300 * outside + Math.abs(by) / 4};
  });
  const {bend} = ways.reduce((best, it) => (it.cost < best.cost ? it : best));
  const edge = (card) => {
    const [dx, dy] = [Math.abs(bend[0] - card[0]), Math.abs(bend[1] - card[1])];
    return between(card, bend, Math.min(84 / Math.max(dx, 1), 26 / Math.max(dy, 1), 0.5));
  };
  return [...edge(from), ...bend, ...edge(to)];
}

// (zones of one pair first lie where their labels have room, and then get their arrows)
const ZONES = PLAN.zones.map((zone) => ({...zone, host: PLAN.machines[zone.host], guest: PLAN.machines[zone.guest]}));
ZONES.forEach((zone, i) => (ZONES[i] = zoneBetween(zone, CARDS[zone.host], CARDS[zone.guest])));
ZONES.forEach((zone) => (zone.way = wayOf(zone)));

// How a plate goes through a zone: from place to place, by the zone's posture.
const WAYS = {};
ZONES.forEach(({name, inward, outward}) => {
  if (inward) WAYS[name + " openin"] = inward;
  if (outward) WAYS[name + " openout"] = outward;
});

// ---- Frames. Of each machine there is the number of the line of its program at which it stands.

const linesOf = (i) => PROGRAMS[i] || [];
const isAsked = (text) => !/^(run|await) /.test(text);

// The line at which a machine asks: after the runs and the waits for sensors that it stands at.
function askingLine(lines, at) {
  for (let tried = 0; tried < lines.length && !isAsked(lines[at]); tried++) at = (at + 1) % lines.length;
  return at;
}

// The line at which a machine stands after an answer. It goes on if its call was done, or if it is shown that the zone
// for which it waits is its own.
function lineAfter(i, at, {machine, answer}) {
  const lines = linesOf(i), asking = askingLine(lines, at);
  const isLetOn = answer === "done" || answer.startsWith(`zone ${machine} `);
  return lines.length && isLetOn ? (asking + 1) % lines.length : asking;
}

// What a card says of a line: of a run without its sensor, and not more than it has room for.
const STEP_ROOM = Math.floor((cardWidth() - 22 - 12 * Math.max(...MACHINES.map((it) => MARKS[it].length))) / 7.4);

function stepText(i, at) {
  const text = (linesOf(i)[at] || "").replace(/ until .*/, "");
  return text.length > STEP_ROOM ? text.slice(0, STEP_ROOM - 1) + "\u2026" : text;
}

function firstFrame(line) {
  const word = line.split(";")[1];
  const frame = {at: MACHINES.map(() => 0), asked: MACHINES.map(() => ["", ""]), waits: {}, call: "", answer: ""};
  frame.steps = frame.at.map((at, i) => stepText(i, at));
  frame.word = BigInt("0x" + word);
  frame.state = unpacked(frame.word);
  frame.plates = firstPlates(frame.state);
  frame.numbered = Math.max(0, ...frame.plates);
  return frame;
}

// After an advance a place has the plate that came, with the next number, or no plate.
function turnPlate(frame, place) {
  const comes = !frame.plates[place];
  if (comes) frame.numbered++;
  frame.plates = replaced(frame.plates, place, comes ? frame.numbered : 0);
}

function nextFrame(before, line) {
  const [machine, call, answer, word] = line.split(";"), i = MACHINES.indexOf(machine);
  const frame = {...before, machine, call, answer, asked: replaced(before.asked, i, [call, answer])};
  frame.at = replaced(before.at, i, lineAfter(i, before.at[i], frame));
  frame.steps = replaced(before.steps, i, stepText(i, frame.at[i]));
  if (word) {
    frame.word = BigInt("0x" + word);
    frame.state = unpacked(frame.word);
  }
  const place = PLAN.places.findIndex(({name}) => call === "advance " + name);
  if (answer === "done" && place >= 0) turnPlate(frame, place);
  else if (answer === "done") frame.plates = movedPlates(before, frame);
  // (who inquires by its program waits until the zone is its own)
  const isShown = answer.startsWith("zone "), isOwn = answer.startsWith(`zone ${machine} `);
  const stays = answer !== "done" && (isShown ? ASK_AGAIN && !isOwn : ASK_AGAIN || !NO_WAITS.includes(answer));
  frame.waits = waitsAfter(before, frame, stays, false);
  return frame;
}

function filmOf(text) {
  const [start, ...lines] = text.trim().split("\n"), frames = [firstFrame(start)];
  lines.forEach((line, k) => frames.push(nextFrame(frames[k], line)));
  return {frames, collision: 0, last: lines.length, note: PLAN.note};
}

// Whether a motor runs, by the line at which its machine stands; and whether the word permits it.
function runs(frame, {name, machine}) {
  const text = linesOf(machine)[frame.at[machine]] || "";
  return text.startsWith("run ") && text.split(" until ")[0].split(" ").slice(1).includes(name);
}

const isPermitted = (frame, {mask, pattern}) => (frame.word & BigInt("0x" + mask)) === BigInt("0x" + pattern);

// ---- The picture.

function ties() {
  return ZONES.map(({host, guest, at}) => {
    const line = (machine, dashes) =>
      path(`M${CARDS[machine]}L${at}`, paint("none", colour(machine), 3, {"stroke-dasharray": dashes, opacity: 0.6}));
    return line(host, "none") + line(guest, "3 6");
  }).join("");
}

function stand({name}, i) {
  const [x, y] = STANDS[i];
  return circle([x, y], 15, paint(CARD, SOFT, 1.5, {"stroke-dasharray": "3 3"})) + write(x, y + 29, "small step", name);
}

// The motors of a machine, as many as there is room for: first those that run, then those that may.
function motorsDrawn(frame, machine) {
  const markFor = (motor) => runs(frame, motor) ? RUNS : isPermitted(frame, motor) ? MAY_RUN : MAY_NOT;
  const [x, y] = motorsAt(CARDS[machine]), told = motorsOf(machine).map((motor) => [markFor(motor), motor.name]);
  const sorted = [RUNS, MAY_RUN, MAY_NOT].flatMap((mark) => told.filter((it) => it[0] === mark));
  let room = 34;
  const shown = sorted.filter(([, name]) => (room -= name.length + 3) >= 0).map((it) => it.join(" "));
  const more = shown.length < told.length ? " \u2026" : "";
  return told.length ? write(x, y, "small step motors", shown.join("  ") + more) : "";
}

function picture({...frame}) {
  const plates = [...STANDS, ...ZONES.map(({at}) => at)].map((at, i) => plate(at, frame.plates[i], false)).join("");
  const motors = PLAN.machines.map((it) => motorsDrawn(frame, it)).join("");
  return pictureOf(frame, ties(), PLAN.places.map(stand).join("") + plates + motors);
}

// Where a report has axes, a plan has the line of each machine, and what each motor does.
function axesOf(frame) {
  const lines = PLAN.machines.flatMap((name, i) => {
    const program = linesOf(i), at = frame.at[i];
    return program.length ? [`${name} line ${at + 1} of ${program.length}: ${program[at]}`] : [];
  });
  const motors = PLAN.motors.map((it) => {
    const may = isPermitted(frame, it) ? "may run" : "may not run";
    return `${it.name} of ${PLAN.machines[it.machine]} ${runs(frame, it) ? "runs" : may}`;
  });
  return [...lines, ...motors];
}

// What the pictures of all plants share: plates, zones with their labels, cards of machines, and arrows of waits.

const get = (id) => document.getElementById(id);
const SHORT = {closed: "shut", moving: "moves", openin: "in", openout: "out"};

const tag = (name, attributes, inner = "") =>
  `<${name}${Object.entries(attributes).map(([key, value]) => ` ${key}="${value}"`).join("")}>${inner}</${name}>`;
const paint = (fill, stroke = "none", width = 1, more = {}) => ({fill, stroke, "stroke-width": width, ...more});
const circle = ([cx, cy], r, style) => tag("circle", {cx, cy, r, ...style});
const rect = (x, y, width, height, rx, style) => tag("rect", {x, y, width, height, rx, ...style});
const path = (d, style) => tag("path", {d, ...style});
const write = (x, y, kind, text, anchor = "middle", fill = "var(--ink)") =>
  tag("text", {x, y, class: kind, "text-anchor": anchor, style: "fill:" + fill}, text);
const colour = (machine) => (machine ? `var(--of-${machine})` : "var(--soft)");
const inkOn = (machine) => `var(--on-${machine}, #000)`;
const markOf = (machine) => MARKS[machine] || machine[0].toUpperCase();
const plateColour = (isForged) => `var(--${isForged ? "forged" : "plate"})`;
const INK = "var(--ink)", CARD = "var(--card)", SOFT = "var(--soft)", ALARM = "var(--alarm)", BELT = "var(--belt)";

function plate([x, y], number, isForged) {
  if (!number) return "";
  const ring = isForged ? circle([x, y], 12, paint("none", "#fff", 1.5)) : "";
  const text = write(x, y + 6, "number", number, "middle", isForged ? "#fff" : INK);
  return circle([x, y], 15, paint(plateColour(isForged), INK, 1.5)) + ring + text;
}

function zoneDrawn({at, r}, {owner, posture}) {
  const [width, dashes] = {closed: [4, "none"], moving: [3, "2 4"], openin: [2, "10 6"], openout: [2, "10 6"]}[posture];
  return circle(at, r, paint(colour(owner), "none", 1, {"fill-opacity": owner ? 0.38 : 0.12}))
    + (posture === "moving" ? circle(at, r, paint("url(#hatch)")) : "")
    + circle(at, r, paint("none", colour(owner), width, {"stroke-dasharray": dashes}));
}

// Wide enough for the longest text of a zone.
function labelWidth({name, host, guest}) {
  return Math.max(132, 6.6 * `${name} ${host.length > guest.length ? host : guest} openout *`.length);
}

function zoneLabel(zone, {owner, flag, posture}) {
  const {name, label: [x, y]} = zone, dot = flag ? " &#9679;" : "", half = labelWidth(zone) / 2;
  return rect(x - half, y - 12, 2 * half, 24, 12, paint(CARD, colour(owner), 2.5))
    + write(x, y + 4, "long", `${name} ${owner || "free"} ${posture}${dot}`)
    + write(x, y + 7, "short", `${name} ${owner ? markOf(owner) : "-"} ${SHORT[posture]}${dot}`);
}

// The style of a step's text: small enough that it ends within this width in a font with wide letters, too.
const stepStyle = (step, width) => `${SOFT};font-size:${Math.min(13, Math.floor(width / step.length / 0.062) / 10)}px`;

// Wide enough for the longest name.
const cardWidth = () => Math.min(Math.max(148, 44 + 12.3 * Math.max(...MACHINES.map((it) => it.length))), 220);

function card(machine, frame) {
  const [x, y] = CARDS[machine], i = MACHINES.indexOf(machine), {stopped} = frame.state;
  if (machine === "watch" && !stopped && !frame.asked[i][0]) return "";
  const isTurn = frame.machine === machine, wait = frame.waits[machine];
  const isBarred = machine === "watch" ? stopped : wait && wait.target === "watch";
  const watches = stopped ? "stopped " + NAMES.stopped : "looks on";
  const step = machine === "watch" ? watches : frame.steps[i].replace("!", ": ");
  const half = cardWidth() / 2, mark = 10 + 12 * markOf(machine).length, left = x - half + 8 + mark;
  return rect(x - half, y - 18, 2 * half, 36, 6, paint(CARD, isTurn ? INK : "var(--line)", isTurn ? 3 : 1))
    + rect(x - half + 3, y - 15, mark, 30, 4, paint(colour(machine)))
    + write(x - half + 3 + mark / 2, y + 5, "name", markOf(machine), "middle", inkOn(machine))
    + write(left, y - 2, "name long", machine, "start") + write(left, y + 7, "name short", machine, "start")
    + write(left, y + 12, "small step", step, "start", stepStyle(step, x + half - 4 - left))
    + (isBarred ? stopSign(x + half - 12, y - 7) : "");
}

function stopSign(x, y) {
  return path(`M${x - 4} ${y - 10}h8l6 6v8l-6 6h-8l-6 -6v-8z`, paint(ALARM))
    + path(`M${x - 6} ${y}h12`, paint("none", CARD, 4));
}

// Between two machines the arrows of both directions keep to their right.
function arrow([machine, {target}], ring) {
  const pair = [machine, target];
  const zone = ZONES.find(({host, guest}) => pair.includes(host) && pair.includes(guest));
  if (!zone) return "";
  let [x1, y1, x, y, x2, y2] = zone.way;
  if (zone.guest === machine) [x1, y1, x2, y2] = [x2, y2, x1, y1];
  const length = Math.hypot(x2 - x1, y2 - y1), dx = -(y2 - y1) / length * 6, dy = (x2 - x1) / length * 6;
  const d = `M${x1 + dx} ${y1 + dy}Q${x + dx} ${y + dy} ${x2 + dx} ${y2 + dy}`;
  const kind = ring.includes(machine) && ring.includes(target) ? "wait ring" : "wait";
  return path(d, {class: "halo"}) + path(d, {class: kind, "marker-end": "url(#head)"});
}

function arrows(frame) {
  const ring = ringOf(frame);
  return Object.entries(frame.waits).map((wait) => arrow(wait, ring)).join("");
}

const DEFS = `<defs><marker id="head" viewBox="0 0 8 8" refX="6" refY="4" markerWidth="15" markerHeight="15"
 markerUnits="userSpaceOnUse" orient="auto"><path d="M0 0 8 4 0 8z" fill="var(--alarm)"/></marker>
<pattern id="hatch" width="8" height="8" patternTransform="rotate(45)" patternUnits="userSpaceOnUse">
<rect width="3" height="8" fill="var(--ink)" opacity=".3"/></pattern></defs>`;

// A plant's own drawing lies below the labels and above the zones, and what it stands on below those.
function pictureOf(frame, ground, things) {
  const {zones} = frame.state, each = (drawn) => ZONES.map((zone, i) => drawn(zone, zones[i])).join("");
  const cards = MACHINES.map((machine) => card(machine, frame)).join("");
  return DEFS + ground + each(zoneDrawn) + things + each(zoneLabel) + cards + arrows(frame);
}

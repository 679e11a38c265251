"use strict";
const data = JSON.parse(document.getElementById("data").textContent);
const by = (id) => document.getElementById(id);

// what is shown: the step, the view, the box under the pointer, the box and the pixel that were chosen
const now = { step: 0, view: "built", over: null, box: null, pixel: null };

// the tree and the paint whose rows stand in the page
const drawn = { tree: null, paint: null };

const step = () => data.steps[now.step];
const paint = () => data.paints[step().paint];
const tree = () => data.trees[step().tree];
const count = (number, one, more) => `${number.toLocaleString("en")} ${number === 1 ? one : more || one + "s"}`;

// ---------------------------------------------------------------------------------------------------------------------
// Lists and pixels: what docs/DEFINITIONS.md says of leaves and hits

const holds = ([x, y, w, h], px, py) => x <= px && px < x + w && y <= py && py < y + h;
const covers = (item, x, y) => holds(item.visible, x, y) && holds(item.outer, x, y) && !holds(item.inner, x, y);
const isGroup = (entry) => typeof entry !== "number";
const itemsOf = (of) => of.list.filter((entry) => !isGroup(entry)).map((number) => data.items[number]);
const takesHits = (item) => item.hits && item.part !== "outline";

// The items that cover a pixel, the topmost first; the first of them that takes hits is hit.
function pile(x, y) {
  const items = paint() ? itemsOf(paint()).filter((item) => covers(item, x, y)).reverse() : [];
  const hit = items.findIndex(takesHits);
  return items.map((item, place) => ({ item, isHit: place === hit, isPast: hit < 0 || place < hit }));
}

function hitAt(x, y) {
  const hit = pile(x, y).find((each) => each.isHit);
  return hit ? hit.item.id : null;
}

// ---------------------------------------------------------------------------------------------------------------------
// Making elements

function element(name, className, ...inner) {
  const made = document.createElement(name);
  if (className) made.className = className;
  made.append(...inner.filter((each) => each !== null && each !== undefined));
  return made;
}

const sentence = (text) => text[0].toUpperCase() + text.slice(1);

// Names stand between grave accents.
const inWords = (text) => text.split("`").map((each, place) => (place % 2 ? element("code", "", each) : each));

function swatch(color) {
  const made = element("span", "swatch");
  if (color) made.style.setProperty("--ink", color.startsWith("#") ? color : "#" + color);
  else made.classList.add("none");
  return made;
}

function row(id, depth, ...inner) {
  const made = element("li", "row", ...inner);
  made.dataset.id = id;
  made.style.paddingLeft = `${8 + 13 * Math.min(depth, 12)}px`;
  return made;
}

function fill(list, rows) {
  const place = list.scrollTop;
  list.replaceChildren(...rows);
  list.scrollTop = place;
}

// ---------------------------------------------------------------------------------------------------------------------
// The tree and its box

const ORDINARY = { position: "static", "z-index": "auto", opacity: 255, overflow: "visible", display: "block", float: "none",
  visibility: "visible", "pointer-events": "auto", "mix-blend-mode": "normal", isolation: "auto" };
const SPOKEN = { "z-index": (z) => `z ${z}`, opacity: (n) => `opacity ${n}`, float: (side) => `float ${side}`,
  overflow: (how) => `overflow ${how}`, "pointer-events": () => "no hits" };

function noteOf(style) {
  const named = Object.keys(ORDINARY).filter((name) => name in style && style[name] !== ORDINARY[name]);
  return named.map((name) => (SPOKEN[name] ? SPOKEN[name](style[name]) : style[name])).join(" · ");
}

const inkOf = ({ background, content }) => [background, content].find((color) => color && color !== "transparent");

function showTree() {
  fill(by("tree"), tree().map(([number, depth]) => {
    const box = data.boxes[number];
    const made = row(box.id, depth, swatch(inkOf(box.style)), element("span", "name", box.id),
      element("span", "note", noteOf(box.style)));
    made.title = noteOf(box.style);
    return made;
  }));
}

// How far a box is scrolled, and where it is drawn itself, where that is not where it stands.
function scrollsOf(box) {
  const own = box.scroll.some((way) => way !== 0) ? [["scrolled to", box.scroll.join(", ")]] : [];
  const isElsewhere = box.at.some((side, place) => side !== box.rect[place]);
  return isElsewhere ? [["drawn at", box.at.slice(0, 2).join(", ")], ...own] : own;
}

const boxNow = (id) => tree().map(([number]) => data.boxes[number]).find((box) => box.id === id);

function showBox() {
  const id = now.over || now.box || step().box;
  const box = id && boxNow(id);
  if (!box) {
    const gone = [element("code", "", id || ""), " is not in the tree after this step."];
    const why = id ? gone : ["Point at a box to see its values, here, in the picture or in the list."];
    by("box").replaceChildren(element("h3", "", "A box"), element("p", "", ...why));
    return;
  }
  const [x, y, w, h] = box.rect;
  const values = [["border box", `${w} × ${h} at ${x}, ${y}`], ...scrollsOf(box), ...Object.entries(box.style)];
  const terms = values.flatMap(([name, value]) =>
    [element("dt", "", name), element("dd", "", String(Array.isArray(value) ? value.join(" ") : value ?? "none"))]);
  by("box").replaceChildren(element("h3", "", element("code", "", box.id)), element("dl", "", ...terms));
}

// ---------------------------------------------------------------------------------------------------------------------
// The list

const isBuilt = (item) => item.made === paint().number;

function itemRow(item, depth, said) {
  const made = row(item.id, depth, swatch(item.color), element("span", "name", item.id), element("span", "note", item.part),
    element("span", "made", said));
  made.dataset.part = item.part;
  return made;
}

function listRow(entry) {
  if (isGroup(entry)) {
    const how = [entry.opacity < 255 ? `opacity ${entry.opacity}` : "", entry.mode === "normal" ? "" : entry.mode];
    const made = row(entry.id, entry.depth, element("span", "swatch whole"), element("span", "name", entry.id),
      element("span", "note", ["group", ...how.filter(Boolean)].join(" · ")));
    made.classList.add("group");
    return made;
  }
  const item = data.items[entry];
  const made = itemRow(item, item.depth, isBuilt(item) ? "built" : `paint ${item.made}`);
  made.classList.add(isBuilt(item) ? "built" : "kept");
  return made;
}

// The entries with the topmost first: each level turned round, a group still before what is in it.
function topmostFirst(list) {
  const depthOf = (entry) => (isGroup(entry) ? entry.depth : data.items[entry].depth);
  const levels = [[]];
  const close = (depth) => {
    while (levels.length > depth + 1) {
      const inner = levels.pop();
      levels.at(-1).at(-1).push(...inner.reverse().flat());
    }
  };
  for (const entry of list) {
    close(depthOf(entry));
    levels.at(-1).push([entry]);
    if (isGroup(entry)) levels.push([]);
  }
  close(0);
  return levels[0].reverse().flat();
}

function showList() {
  const nothing = element("li", "row", element("span", "note", "Nothing is painted yet."));
  fill(by("list"), paint() ? topmostFirst(paint().list).map(listRow) : [nothing]);
}

// ---------------------------------------------------------------------------------------------------------------------
// The picture

const pictures = data.pictures.map((source) => Object.assign(new Image(), { src: source }));
const [WIDTH, HEIGHT] = data.canvas;
let scale = 1;

// The greatest scale at which the canvas fits; whole or half where that is not much less.
function fit() {
  const room = by("stage").getBoundingClientRect();
  const most = Math.min(room.width / WIDTH, (room.height - 20) / HEIGHT, 24);
  scale = most > 4 ? Math.floor(most) : most > 1 ? Math.floor(4 * most) / 4 : most;
  const sharp = window.devicePixelRatio || 1;
  const canvas = by("canvas");
  canvas.style.width = `${WIDTH * scale}px`;
  canvas.style.height = `${HEIGHT * scale}px`;
  canvas.width = Math.round(WIDTH * scale * sharp);
  canvas.height = Math.round(HEIGHT * scale * sharp);
}

function context() {
  const made = by("canvas").getContext("2d");
  const sharp = by("canvas").width / WIDTH;
  made.setTransform(sharp, 0, 0, sharp, 0, 0);
  return made;
}

// What an item covers: its outer rectangle without the inner one, where it may be seen.
function shapeOf(item) {
  const shape = new Path2D();
  shape.rect(...item.outer);
  if (item.inner[2] > 0) shape.rect(...item.inner);
  return shape;
}

function inside(on, rects, draw) {
  on.save();
  const clip = new Path2D();
  rects.forEach((rect) => clip.rect(...rect));
  on.clip(clip);
  draw();
  on.restore();
}

const channels = (color) => [0, 2, 4, 6].map((at) => parseInt(color.slice(at, at + 2), 16));

function inkFor(item, opacity) {
  const [red, green, blue, alpha] = channels(item.color);
  const shade = (channel) => (isBuilt(item) ? channel : Math.round(236 + channel / 14));
  return `rgb(${shade(red)} ${shade(green)} ${shade(blue)} / ${(alpha / 255) * opacity})`;
}

// The items from bottom to top, those that the paint built in their colours and those that it kept pale; each is drawn with
// the opacities of the groups round it, without blend modes.
function drawBuilt(on) {
  const opacities = [];
  for (const entry of paint().list) {
    const depth = isGroup(entry) ? entry.depth : data.items[entry].depth;
    opacities.length = depth;
    if (isGroup(entry)) {
      opacities.push(entry.opacity / 255);
      continue;
    }
    const item = data.items[entry];
    on.fillStyle = inkFor(item, opacities.reduce((a, b) => a * b, 1));
    inside(on, [item.visible], () => on.fill(shapeOf(item), "evenodd"));
  }
}

const isWhole = (of) => of.area === WIDTH * HEIGHT;

// The pixels that a paint painted anew; where they are the whole canvas a frame says so.
function drawArea(on, of) {
  if (isWhole(of)) frame(on, 1.5, "rgb(200 30 60 / 0.9)");
  else if (of.rects.length > 0) hatch(on, of.rects);
}

function frame(on, inset, color) {
  on.lineWidth = 3 / scale;
  on.strokeStyle = color;
  on.strokeRect(inset / scale, inset / scale, WIDTH - (2 * inset) / scale, HEIGHT - (2 * inset) / scale);
}

function hatch(on, rects) {
  const apart = 9 / scale;
  const lines = new Path2D();
  for (let at = -HEIGHT; at < WIDTH; at += apart) {
    lines.moveTo(at, HEIGHT);
    lines.lineTo(at + HEIGHT, 0);
  }
  inside(on, rects, () => {
    on.lineWidth = 2.2 / scale;
    on.strokeStyle = "rgb(255 255 255 / 0.35)";
    on.stroke(lines);
    on.lineWidth = 1 / scale;
    on.strokeStyle = "rgb(200 30 60 / 0.7)";
    on.stroke(lines);
  });
}

function outline(on, [x, y, w, h], color, dash) {
  on.setLineDash(dash.map((length) => length / scale));
  on.lineWidth = 4 / scale;
  on.strokeStyle = "rgb(255 255 255 / 0.75)";
  on.strokeRect(x, y, w, h);
  on.lineWidth = 2 / scale;
  on.strokeStyle = color;
  on.strokeRect(x, y, w, h);
  on.setLineDash([]);
}

// The box under the pointer, the chosen one and the one that an edit names; and the chosen pixel.
function drawMarks(on) {
  for (const [id, dash] of [[step().box, [5, 4]], [now.box, []], [now.over, []]]) {
    const box = id && boxNow(id);
    if (box) outline(on, box.at, "#6b4fbb", dash);
  }
  if (now.pixel) {
    const [x, y] = now.pixel;
    outline(on, [x, y, 1, 1], "#000", []);
  }
}

function drawPicture(on) {
  const picture = pictures[paint().picture];
  on.imageSmoothingEnabled = scale < 1;
  if (picture.complete) on.drawImage(picture, 0, 0, WIDTH, HEIGHT);
  else picture.addEventListener("load", draw, { once: true });
}

function draw() {
  const on = context();
  on.fillStyle = "#fff";
  on.fillRect(0, 0, WIDTH, HEIGHT);
  if (paint() && now.view === "built") {
    drawBuilt(on);
    drawArea(on, paint());
  } else if (paint()) {
    drawPicture(on);
  }
  drawMarks(on);
}

// ---------------------------------------------------------------------------------------------------------------------
// What is said of a step

function paintInWords(of) {
  const what = of.built === 0 ? "had nothing to build" : `built ${count(of.built, "item")}`;
  return `Paint ${of.number} ${what}, kept ${of.kept.toLocaleString("en")} and painted ${count(of.area, "pixel")} anew`;
}

// The edits and undos that were done since the paint before a step.
function editsBefore(number) {
  const since = data.steps.slice(0, number).reverse();
  const edits = since.slice(0, since.findIndex((each) => each.paints || each.kind === "start"));
  return edits.filter((each) => each.lines[0] === "ok" || (each.lines[0] || "").startsWith("undone")).reverse();
}

function causeInWords(number) {
  const edits = editsBefore(number).map((each) => each.words);
  if (data.paints[step().paint].number === 1) return "The first paint builds every item and paints the whole canvas.";
  if (edits.length === 0) return "Nothing was edited since the paint before.";
  const more = edits.length > 3 ? `; and ${edits.length - 3} more edits` : "";
  return `Since the paint before: ${edits.slice(0, 3).join("; ")}${more}.`;
}

function moreInWords() {
  const at = step();
  const line = at.lines[0] || "";
  if (at.kind === "start") return `The tree has ${count(tree().length, "box", "boxes")}.`;
  if (line.startsWith("refused")) return `Refused, and nothing changes: ${at.answers[0].slice(9)}.`;
  if (at.kind === "paint") return causeInWords(now.step);
  if (at.paints) return `The list was pending, so a paint comes first. ${paintInWords(paint())}.`;
  if (!paint()) return "Nothing is painted yet.";
  if (!at.pending) return `Asked of the list that paint ${paint().number} left.`;
  const edits = count(editsBefore(now.step + 1).length, "edit");
  return `The list is pending: shown is what paint ${paint().number} left, ${edits} ago.`;
}

function showSays() {
  const [title, more] = by("says").children;
  const at = step();
  const words = at.kind === "paint" ? paintInWords(paint()) : sentence(at.words);
  title.replaceChildren(...inWords(words + (at.words.endsWith("?") ? ` ${at.answers.at(-1)}` : "")));
  more.replaceChildren(...inWords(moreInWords()));
}

function legendItem(className, text) {
  return element("span", "", className ? element("i", className) : null, text);
}

function areaInWords(of) {
  if (isWhole(of)) return `painted anew: the whole canvas, ${count(of.area, "pixel")}`;
  if (of.shown === of.area) return `painted anew, ${count(of.area, "pixel")}`;
  return `${of.shown.toLocaleString("en")} of the ${count(of.area, "pixel")} painted anew: where an item is not as it was`;
}

function showLegend() {
  const of = paint();
  const built = () => [
    legendItem("is-built", `built by paint ${of.number}`),
    legendItem("is-kept", "kept"),
    legendItem(isWhole(of) ? "is-whole" : "is-invalid", areaInWords(of)),
  ];
  const picture = () => [legendItem("", `the picture after paint ${of.number}, as the program renders it`)];
  by("legend").replaceChildren(...(!of ? [] : now.view === "built" ? built() : picture()));
}

// Of a paint: how much of the list it built.
function bar(each) {
  if (!each.paints) return null;
  const of = data.paints[each.paint];
  const part = element("b", "");
  part.style.width = `${(100 * of.built) / Math.max(1, of.built + of.kept)}%`;
  return element("span", "bar", part);
}

function stepRow(each, number) {
  const answer = element("span", "answer", ...inWords(each.answers.join("; ")));
  const words = each.kind === "paint" ? `paint ${data.paints[each.paint].number}` : each.words;
  const kind = element("span", "kind", each.kind);
  const told = element("span", "words", ...inWords(words), bar(each));
  const made = element("li", "step", element("span", "number", String(number)), kind, told, answer);
  made.title = words.replaceAll("`", "");
  made.classList.toggle("paints", each.paints);
  made.classList.toggle("refused", each.lines.some((line) => line.startsWith("refused")));
  made.addEventListener("click", () => go(number));
  return made;
}

function showWhere() {
  by("where").textContent = now.step === 0 ? "Before the first command" : `Command ${now.step} of ${data.steps.length - 1}`;
  by("back").disabled = now.step === 0;
  by("on").disabled = now.step === data.steps.length - 1;
  [...by("steps").children].forEach((each, number) => each.classList.toggle("now", number === now.step));
  by("steps").children[now.step].scrollIntoView({ block: "nearest" });
}

// ---------------------------------------------------------------------------------------------------------------------
// Going on

function showMarks() {
  for (const made of document.querySelectorAll("[data-id]")) {
    made.classList.toggle("over", made.dataset.id === now.over);
    made.classList.toggle("chosen", made.dataset.id === now.box);
    made.classList.toggle("subject", made.dataset.id === step().box);
  }
  showBox();
  draw();
}

// Shows a step; the tree and the list anew only where they are others.
function show() {
  if (drawn.tree !== step().tree) showTree();
  if (drawn.paint !== step().paint) showList();
  Object.assign(drawn, { tree: step().tree, paint: step().paint });
  showSays();
  showLegend();
  showWhere();
  showPixel();
  showMarks();
}

function go(number) {
  now.step = Math.max(0, Math.min(data.steps.length - 1, number));
  const { pixel } = step();
  if (pixel) now.pixel = holds([0, 0, WIDTH, HEIGHT], ...pixel) ? pixel : null;
  show();
}

function goToPaint(direction) {
  for (let at = now.step + direction; at >= 0 && at < data.steps.length; at += direction) {
    if (data.steps[at].paints || at === 0) return go(at);
  }
}

function pointAt(id) {
  if (id === now.over) return;
  now.over = id;
  showMarks();
}

function choose(id) {
  now.box = id;
  showMarks();
  const first = (list) => [...by(list).children].find((each) => each.dataset.id === id);
  for (const list of ["tree", "list"]) if (id && first(list)) first(list).scrollIntoView({ block: "nearest" });
}

function pixelOf(event) {
  const at = by("canvas").getBoundingClientRect();
  return [Math.floor((event.clientX - at.left) / scale), Math.floor((event.clientY - at.top) / scale)];
}

function clickAt(event) {
  const [x, y] = pixelOf(event);
  if (!holds([0, 0, WIDTH, HEIGHT], x, y)) return;
  now.pixel = [x, y];
  showPixel();
  choose(hitAt(x, y));
}

function listen() {
  for (const list of ["tree", "list", "pixel"]) {
    by(list).addEventListener("mouseover", (event) => pointAt(event.target.closest("[data-id]")?.dataset.id ?? null));
    by(list).addEventListener("mouseleave", () => pointAt(null));
    by(list).addEventListener("click", (event) => {
      const id = event.target.closest("[data-id]")?.dataset.id;
      if (id) choose(id === now.box ? null : id);
    });
  }
  by("canvas").addEventListener("mousemove", (event) => pointAt(hitAt(...pixelOf(event))));
  by("canvas").addEventListener("mouseleave", () => pointAt(null));
  by("canvas").addEventListener("click", clickAt);
  by("back").addEventListener("click", () => go(now.step - 1));
  by("on").addEventListener("click", () => go(now.step + 1));
  document.querySelectorAll("input[name=view]").forEach((input) => input.addEventListener("change", () => view(input.value)));
  window.addEventListener("resize", () => { fit(); draw(); });
  window.addEventListener("keydown", onKey);
}

function view(which) {
  now.view = which;
  document.querySelector(`input[value=${which}]`).checked = true;
  showLegend();
  draw();
}

const KEYS = {
  ArrowLeft: () => go(now.step - 1),
  ArrowRight: () => go(now.step + 1),
  ArrowUp: () => goToPaint(-1),
  ArrowDown: () => goToPaint(1),
  Home: () => go(0),
  End: () => go(data.steps.length - 1),
  Escape: () => { now.pixel = null; showPixel(); choose(null); },
  v: () => view(now.view === "built" ? "picture" : "built"),
};

function onKey(event) {
  const act = KEYS[event.key];
  if (!act || event.ctrlKey || event.altKey || event.metaKey) return;
  event.preventDefault();
  act();
}

function start() {
  const { version, canvas, steps, cuts } = data;
  const about = `version ${version}, ${canvas.join(" × ")} pixels, ${count(steps.length - 1, "command")}`;
  const told = [cuts.length > 0 ? `${about}.` : about, ...cuts.map((cut) => `Cut: ${cut}.`)];
  by("about").replaceChildren(...inWords(told.join(" ")));
  by("steps").replaceChildren(...steps.map(stepRow));
  listen();
  fit();
  const first = steps.findIndex((each) => each.paints);
  go(first < 0 ? 0 : first);
}

start();

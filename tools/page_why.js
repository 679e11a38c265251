"use strict";
// What lies under a pixel, the topmost first, and why each leaf is above the next: what rd_why answered, in its own words, which
// docs/FORMATS.md has. Of rd_why the page has each stack of leaves once.

// ---------------------------------------------------------------------------------------------------------------------
// The words of rd_why

const STEPS = ["background of the root", "its background and border", "layers of negative level",
  "backgrounds and borders of blocks", "floats", "inline box and its line", "contents and lines", "layers of level 0",
  "layers of positive level", "outlines"];

// The name of a box in a line; who points at it points at the box.
function nameOf(id) {
  const made = element("code", "", id);
  made.dataset.id = id;
  return made;
}

function placeInWords({ step, context, line, box }) {
  const inLine = line === box ? [] : [" in the line of ", nameOf(line)];
  return [`step ${step} (${STEPS[step - 1]}) of `, nameOf(context), ...inLine];
}

function groupsInWords(groups) {
  const named = groups.flatMap(({ box }, place) => [place === 0 ? "in the group of " : " in that of ", nameOf(box)]);
  return groups.length > 0 ? named : ["in no group"];
}

function leafInWords(leaf) {
  const way = leaf.way.flatMap((place, at) => [at === 0 ? "" : ", in ", ...placeInWords(data.places[place])]);
  const hit = leaf.hit ? "is hit" : leaf.takes_hit ? "would be hit" : "takes no hit";
  return [...way, "; ", ...groupsInWords(leaf.groups), "; ", hit];
}

// What follows the box whose steps have both leaves, where they differ in more than the part.
const DIFFERING = {
  step: (u, l) => [` paints step ${u.step} (`, nameOf(u.box), `) after step ${l.step} (`, nameOf(l.box), ")"],
  level: (u, l) => [` paints level ${u.level} (`, nameOf(u.box), `) after level ${l.level} (`, nameOf(l.box), ")"],
  tree: (u, l) => [" paints ", nameOf(u.line), " after ", nameOf(l.line), ` in step ${u.step}, by tree order`],
  line: (u, l) => [" paints ", nameOf(u.box), " after ", nameOf(l.box), " in the line of ", nameOf(u.line), ", by tree order"],
};

function reasonInWords({ by, upper, lower }) {
  if (by === "part") return ["a box paints its background, then its border, then its content"];
  const [u, l] = [data.places[upper], data.places[lower]];
  return [nameOf(u.context), ...DIFFERING[by](u, l)];
}

// ---------------------------------------------------------------------------------------------------------------------
// The lines of a pixel

// The answer to a stack of items, the topmost first: of each the number of its leaf and that of why it is above the next.
function answerTo(items) {
  const answers = data.stacks[paint().stacks] || [];
  const isOf = ([number], { id, part }) => data.leaves[number].box === id && data.leaves[number].part === part;
  return answers.find((answer) => answer.length === items.length && answer.every((leaf, at) => isOf(leaf, items[at])));
}

// A line of an answer; who points at it points at the box.
function line(id, className, ...words) {
  const made = element("li", className, ...words);
  made.dataset.id = id;
  return made;
}

// The lines under an item's row. That of why it is above the next is of the box whose steps decide.
function linesOf([number, above]) {
  const leaf = data.leaves[number];
  const own = line(leaf.box, "told", ...leafInWords(leaf));
  if (above === null) return [own];
  const reason = data.reasons[above];
  const decides = reason.by === "part" ? leaf.box : data.places[reason.upper].context;
  return [own, line(decides, "told above", "above the next: ", ...reasonInWords(reason))];
}

function pileRow({ item, isHit, isPast }) {
  const why = item.part === "outline" ? "an outline" : item.hits ? "" : "takes no hits";
  const made = itemRow(item, 0, isHit ? "hit" : isPast ? why : "");
  made.classList.add(...(isHit ? ["hit"] : isPast ? ["past"] : ["under"]));
  return made;
}

// The rows of what lies under a pixel, each with its lines where the page has them.
function pileRows(x, y) {
  const found = pile(x, y);
  const answer = answerTo(found.map(({ item }) => item));
  return found.flatMap((each, at) => [pileRow(each), ...(answer ? linesOf(answer[at]) : [])]);
}

// Why the page has no lines of a paint; nothing where it has them.
const silence = () => (paint().stacks === null ? [element("p", "silence", ...inWords(`${sentence(data.silence)}.`))] : []);

function showPixel() {
  by("pixel").classList.toggle("open", Boolean(now.pixel && paint()));
  if (!now.pixel || !paint()) {
    const ask = "Click in the picture: which box is hit, and what lies under that pixel";
    const what = paint() ? `${ask}${data.silence ? "" : ", and why"}.` : "There is nothing to hit before the first paint.";
    by("pixel").replaceChildren(element("h3", "", "A pixel"), element("p", "", what));
    return;
  }
  const [x, y] = now.pixel;
  const hit = hitAt(x, y);
  by("pixel").dataset.hit = hit || "";
  const told = hit ? ["hits ", element("code", "", hit)] : ["hits no box"];
  by("pixel").replaceChildren(element("h3", "", `Pixel ${x}, ${y} `, ...told), element("ol", "", ...pileRows(x, y)), ...silence());
}

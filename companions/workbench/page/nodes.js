// The elements of the picture for lanes, events, arrows and steps. `look` tells how they look now: which events are chosen, of a
// cone, marked, or at hand.

import { draw } from "./elements.js";
import {
  ARROW_LIVE, BOX, CAPTION, DOTS, FOLDED, HEAD, KIND, LABEL, LANE, LEFT, LIVE, NAME, PATH, SORT, SOURCE, TARGET, TOLD, TOP, WIDTH, isWaiting,
} from "./rows.js";

const LONGEST = 11;
const CHARACTER = 6.7;
// How far below their row the arrows of steps run, and where on one its label may stand, the best place first.
const BELOW = 46;
const PLACES = [0.5, 0.44, 0.56, 0.38, 0.62, 0.32, 0.68, 0.26, 0.74, 0.2, 0.8];
// How long a step comes after the one before it, in seconds.
const DELAY = 0.35;
// What a turn says that ended with a problem, or was abandoned.
const FAULT = /^(problem|abandoned) /;

export const bandNode = ([, top, bottom]) => draw("rect", { class: "band", y: top, height: bottom - top, rx: 8 });

export function labelNode([vat]) {
  const text = vat.length > LONGEST ? `${vat.slice(0, LONGEST - 1)}…` : vat;
  return draw("g", { class: "label" }, draw("rect", { width: LABEL, rx: 8 }), draw("text", { class: "word", x: LABEL / 2 }, "vat"),
    draw("text", { class: "vat", x: LABEL / 2 }, text), draw("title", {}, `vat ${vat}`));
}

export function tipNode() {
  const attributes = { id: "tip", viewBox: "0 0 8 8", refX: 7, refY: 4, markerWidth: 11, markerHeight: 11, orient: "auto" };
  return draw("defs", {}, draw("marker", { ...attributes, markerUnits: "userSpaceOnUse" }, draw("path", { d: "M 0 0 L 8 4 L 0 8 z" })));
}

export function eventWords(row, look) {
  const all = [row[NAME], ...row[FOLDED]], words = [isWaiting(row) ? "waiting" : "event", row[KIND], row[LIVE] ? "live" : "undone"];
  if (row[KIND] === "turn" && FAULT.test(row[CAPTION])) words.push("fault");
  if (all.some((name) => look.cone.has(name))) words.push("cone");
  if (all.some((name) => look.marked.has(name))) words.push("marked");
  if (look.chosen.some((name) => all.includes(name))) words.push("chosen");
  if (row[NAME] === look.current) words.push("current");
  return words.join(" ");
}

export function eventNode(row, lanes, look) {
  const width = row[WIDTH], folded = row[FOLDED], inset = isWaiting(row) ? 15 : 9, corner = isWaiting(row) ? BOX / 2 : 7;
  const standing = `${row[KIND]} of ${lanes[row[LANE]][0]}, ${row[LIVE] ? "live" : "undone"}`;
  return draw("g", {
    id: `event-${row[NAME]}`, class: eventWords(row, look), "data-event": row[NAME], role: "img",
    transform: `translate(${row[LEFT]} ${row[TOP]})`, "aria-label": `${row[NAME]}, ${standing}, ${row[CAPTION]}`,
  },
  draw("rect", { class: "ring", x: -4, y: -4, width: width + 8, height: BOX + 8, rx: corner + 3 }),
  draw("rect", { class: "box", width, height: BOX, rx: corner }),
  draw("text", { class: "title", x: inset, y: 16 }, row[NAME]),
  draw("text", { class: "kind", x: width - inset, y: 16 }, row[KIND]),
  draw("text", { class: "caption", x: inset, y: 32 }, row[CAPTION]),
  folded.length > 0 && draw("g", { class: "folded", transform: `translate(${width} ${BOX})` },
    draw("circle", { r: 8 }), draw("text", { y: 3.5 }, folded.length)),
  draw("title", {}, folded.length ? `Folded into it: ${folded.join(" ")}` : `${row[NAME]} ${row[KIND]}`));
}

export function arrowWords(row, look) {
  const words = ["arrow", row[SORT], row[ARROW_LIVE] ? "live" : "undone"];
  if (look.cone.has(row[SOURCE]) && look.cone.has(row[TARGET])) words.push("cone");
  if (look.chosen.some((name) => name === row[SOURCE] || name === row[TARGET])) words.push("near");
  return words.join(" ");
}

export function arrowNode(row, look) {
  return draw("g", { class: arrowWords(row, look) }, draw("path", { d: row[PATH] }), draw("polygon", { points: row[HEAD] }),
    row[DOTS].map(([x, y]) => draw("circle", { cx: x, cy: y, r: 2.6 })), draw("title", {}, row[TOLD]));
}

// A curve from one box to another: below them where they stand in one row, sidewards where there is room, else up or down.
function curve(from, to) {
  const middle = (row) => row[LEFT] + row[WIDTH] / 2;
  if (from[TOP] === to[TOP]) {
    const y = from[TOP] + BOX;
    return `M ${middle(from)} ${y} C ${middle(from)} ${y + BELOW} ${middle(to)} ${y + BELOW} ${middle(to)} ${y}`;
  }
  if (to[LEFT] > from[LEFT] + from[WIDTH] + 12) {
    const x = from[LEFT] + from[WIDTH], y = from[TOP] + BOX / 2, u = to[LEFT], v = to[TOP] + BOX / 2, reach = Math.max(24, (u - x) / 2);
    return `M ${x} ${y} C ${x + reach} ${y} ${u - reach} ${v} ${u} ${v}`;
  }
  const isBelow = to[TOP] > from[TOP], y = from[TOP] + (isBelow ? BOX : 0), v = to[TOP] + (isBelow ? 0 : BOX);
  const reach = Math.max(20, Math.abs(v - y) / 2) * (isBelow ? 1 : -1);
  return `M ${middle(from)} ${y} C ${middle(from)} ${y + reach} ${middle(to)} ${v - reach} ${middle(to)} ${v}`;
}

// A place on a path where a label hides no event, as near to its middle as there is one.
function freePlace(path, width, eventsBetween) {
  const length = path.getTotalLength(), places = PLACES.map((part) => path.getPointAtLength(part * length));
  const hides = ({ x, y }, row) => row[LEFT] + row[WIDTH] > x - width / 2 && row[TOP] < y + 12 && row[TOP] + BOX > y - 12;
  const isFree = (place) => !eventsBetween(place.x - width / 2, place.x + width / 2).some((row) => hides(place, row));
  return places.find(isFree) ?? places[0];
}

// A step from one event to another with its label: along their arrow where there is one.
export function stepNode(from, to, label, kind, place, picture) {
  const arrow = picture.data.arrows.find((row) => row[SOURCE] === from[NAME] && row[TARGET] === to[NAME]);
  const path = draw("path", { d: arrow ? arrow[PATH] : curve(from, to), "marker-end": "url(#tip)" });
  const width = label.length * CHARACTER + 14, { x, y } = freePlace(path, width, (left, right) => picture.eventsBetween(left, right));
  const node = draw("g", { class: `step ${kind}`, "data-step": place }, path, draw("g", { transform: `translate(${x} ${y})` },
    draw("rect", { x: -width / 2, y: -10, width, height: 20, rx: 10 }), draw("text", { y: 4 }, label)));
  node.style.animationDelay = `${place * DELAY}s`;
  return node;
}

// What is chosen, in words: an event, a message, an object or a promise; and how one event came of another. And what may be
// done next.

import { linked, make, plural, withLinks } from "./elements.js";

const MOST = 40;
const MOST_STEPS = 1_000_000;
const DOES = { arrive: "Let it arrive", forward: "Let it go on", turn: "Have its turn", learn: "Let it learn" };

const does = (line) => DOES[line.split(" ")[0]];
const paragraphs = (lines) => lines.map((line) => make("p", {}, withLinks(line)));
const note = (line) => make("p", { class: "note" }, linked(line));
const program = (text) => text.length > 0 && make("pre", { tabindex: 0 }, text.join("\n"));
const said = (lines) => lines.length > 0 && make("pre", { tabindex: 0 }, lines.map((line) => [withLinks(line), "\n"]));

function part(title, ...children) {
  return make("div", { class: "part" }, make("h3", {}, title), ...children);
}

function button(text, click, key) {
  return make("button", { type: "button", title: key ? `Key: ${key}` : null, click }, text);
}

// The cells that an event read and wrote, each with the event that had written it.
function cellTable(cells) {
  const heads = ["", "Cell", "Written before by"].map((head) => make("th", { scope: "col" }, head));
  const rows = cells.map(([isWritten, words, cell, writer]) => make("tr", {},
    make("td", {}, isWritten ? "wrote" : "read"),
    make("td", { title: cell }, linked(words)),
    make("td", {}, writer ? linked(writer) : "nothing")));
  return make("table", {}, make("thead", {}, make("tr", {}, heads)), make("tbody", {}, rows));
}

function messagePart(message) {
  return part(`The message ${message.name}`, paragraphs(message.words), program(message.text), said(message.lines),
    message.notes.map(note));
}

function eventActions({ name, live, position }, acts) {
  if (!live) {
    return [
      button("Redo it", () => acts.redo(name, "alone"), "r"),
      button("Redo it and what came of it", () => acts.redo(name, "whole"), "Shift+R"),
    ];
  }
  return [
    button("Undo it, with what came of it…", () => acts.undo(name), "u"),
    button("Exchange with the next", () => acts.exchange(position), "x"),
    button("Settle up to here…", () => acts.settle(name, position), "s"),
    button("Why? Choose a second event", () => acts.startWhy(name), "w"),
  ];
}

export function eventDetails(told, folded, acts) {
  const isLive = told.live;
  return [
    make("h2", {}, told.name,
      make("span", { class: `tag ${isLive ? told.kind : "undone"}` }, isLive ? told.title : `${told.title}, undone`)),
    paragraphs(told.words), program(told.text),
    make("div", { class: "acts" }, eventActions(told, acts)),
    told.message && messagePart(told.message),
    told.cells.length > 0 && part("Cells", cellTable(told.cells)),
    told.log.length > 0 && part("Its log", make("ul", {}, told.log.map((line) => make("li", {}, withLinks(line))))),
    folded.length > 0 && part("Folded into it", make("p", {}, linked(folded.join(" "))), note("Arrivals and learning that belong to it.")),
    part("Causes", make("p", {}, told.causes.length > 0 ? linked(told.causes.join(" ")) : "It has none.")),
    part("In the journal", make("p", { class: "line" }, withLinks(told.line))),
    told.notes.map(note),
  ];
}

// What else has a name; `enabled` are the lines of what may be done with it.
export function thingDetails(told, enabled, acts) {
  const shown = (told.shown ?? []).map(([vat, line]) => make("li", {}, vat ? make("b", {}, `${vat}: `) : null, withLinks(line)));
  return [
    make("h2", {}, told.title), paragraphs(told.words), program(told.text ?? []),
    enabled.length > 0 && make("div", { class: "acts" }, enabled.map((line) => button(`${does(line)}: ${line}`, () => acts.run(line)))),
    told.lines.length > 0 && part("What the program says of it", said(told.lines)),
    shown.length > 0 && part("Where it stands now", make("ul", {}, shown)),
    told.notes.map(note),
  ];
}

const KINDS = {
  chain: "The later one came of the earlier one, step by step:",
  crossed: "Neither came of the other, but both met this cell:",
  none: "Neither came of the other, and no cell that one of them wrote was met by the other.",
  refused: "There is no answer.",
};

export function whyDetails(first, second, why, acts) {
  const step = ([source, target, , words], place) => make("li", { mouseenter: () => acts.point(place), mouseleave: () => acts.point(null) },
    linked(source), " → ", linked(target), words ? [" by ", linked(words)] : null);
  // Where the program was not asked, nothing is known of cells.
  const isUnknown = why.kind === "none" && why.told;
  return [
    make("h2", {}, "Why ", linked(first), " and ", linked(second)),
    make("p", {}, isUnknown ? "No chain of causes leads from the one to the other." : KINDS[why.kind]),
    why.steps.length > 0 && make("ol", {}, why.steps.map(step)),
    why.told && note(why.told),
    make("div", { class: "acts" }, button(`Only ${second}`, () => acts.open(second)), button("Choose nothing", acts.clear, "Escape")),
  ];
}

export function introduction() {
  return [
    make("h2", {}, "Nothing is chosen"),
    note("Choose an event in the picture to read it. Choose a second one with Shift to see why it came of the first."),
    note("Names such as e4 or e4.m0 are links wherever they stand."),
  ];
}

function stepButtons(isDisabled, acts) {
  const count = make("input", {
    id: "steps", type: "number", min: 0, max: MOST_STEPS, value: acts.steps.count, "aria-label": "How many steps",
    input: (event) => acts.steps.count = event.target.value, keydown: (event) => event.key === "Enter" && run(),
  });
  const run = () => acts.run(`run ${count.value || 0}`);
  const one = (text, title, click, name) => make("button", { type: "button", class: name, disabled: isDisabled, title, click }, text);
  return make("div", { class: "acts" },
    one("Step", "Does the first. Key: n", () => acts.run("step"), "main"),
    make("span", { class: "pair" }, count, one("Run", "Does as many, one after another", run)),
    one("Run to the end", "Does what may be done until nothing is left. Key: g", () => acts.run(`run ${MOST_STEPS}`)));
}

// What may be done next, as buttons.
export function nextPanel(state, acts) {
  const { enabled, vats } = state, isBlocked = Boolean(state.ended) || state.busy !== null || state.waiting > 0;
  const one = ([line, place], index) => make("button", {
    type: "button", class: `do ${line.split(" ")[0]}`, disabled: isBlocked, "data-line": line,
    title: `${does(line)}${index < 9 ? `. Key: ${index + 1}` : ""}`, click: () => acts.run(line),
  }, make("span", {}, line), place && make("small", {}, place));
  const other = (text, key, isThere, click) => make("button",
    { type: "button", disabled: isBlocked || !isThere, title: `Key: ${key}`, click }, text);
  return [
    make("h2", {}, "What may be done next", enabled.length > 0 && make("small", {}, plural(enabled.length, "thing"))),
    stepButtons(isBlocked || enabled.length === 0, acts),
    make("div", { class: "acts" }, other("New vat…", "v", true, acts.vat), other("Ask a vat…", "a", vats.length > 0, acts.ask)),
    enabled.length === 0 ? note(vats.length ? "Nothing is left to be done: ask a vat something." : "There is no vat yet.") :
      make("div", { class: "enabled" }, enabled.slice(0, MOST).map(one), enabled.length > MOST && note(`and ${enabled.length - MOST} more`)),
  ];
}

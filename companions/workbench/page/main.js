// The page: what is chosen, what is done, and how it hears of what happened.

import { Console } from "./console.js";
import { eventDetails, introduction, nextPanel, thingDetails, whyDetails } from "./details.js";
import { askDialog, helpDialog, question, vatDialog } from "./dialogs.js";
import { byId, linked, make, plural } from "./elements.js";
import { listenToKeys } from "./keys.js";
import { Picture } from "./picture.js";
import { FOLDED, LANE, NAME, POSITION, isWaiting } from "./rows.js";
import { Gone, done, read, saved } from "./server.js";

const PULSE = 2000;
const MOST_NAMED = 24;
const STANDINGS = {
  proved: "The proved program. Of this page nothing is proved.",
  unproved: "The program without its proofs: nothing of it is proved.",
  named: "A program that was named: nothing is said of it.",
};
const EXAMPLE = `vat bank () 5
def bank {
  to open(balance) {
    return def _ { to plus(n) { return balance + n } }
  }
}
vat ann (bank) 2
def account := bank <- open(10)
def ann { to account() { return account } }
vat bob (ann) 1
(ann <- account()) <- plus(5)
`;

// What the server said last.
let state = { version: -1, count: 0, rows: [], enabled: [], vats: [], ended: null, busy: null, waiting: 0, asked: 0, commands: 0, about: {} };
// What is chosen in the picture, and what is told of it; whether the second event of a why is being chosen.
let chosen = [], shown = null, isChoosingSecond = false;
// The last row of the transcript, what was taken back last, what waits for an answer, the version of the picture.
let lastRow = null, lastUndone = [], confirming = null, pictured = -1;
let isGone = false;
const steps = { count: 10 };

const picture = new Picture(byId("picture"), byId("rail"), { select, hover });
const lines = new Console({ send: (text) => give(text, { kept: 1 }), redo: (names) => give(`redo ${names.join(" ")}`) });
const button = (text, click, name) => make("button", { type: "button", class: name, click }, text);

function notice(text, acts, kind = "fault") {
  byId("notice").className = kind;
  byId("notice").replaceChildren(make("span", {}, text), ...acts);
  byId("notice").hidden = !text;
}

// What was asked of the server, or nothing where it refused: then it is told why.
async function heard(asked) {
  try {
    const answer = await asked;
    isGone = false;
    return answer;
  } catch (fault) {
    isGone = fault instanceof Gone;
    notice(fault.message, []);
    return null;
  }
}

// Gives commands. Answers what more lines they want, or nothing where they were refused before they were given.
async function give(text, words = {}) {
  const undo = /^\s*undo-cone\s+(\S+)\s*$/.exec(text);
  if (undo && !words.isAgreed) {
    askUndo(undo[1], text, words);
    return "";
  }
  const answer = await heard(done("do", { text, kept: words.kept ?? 0, whole: words.kept ? 0 : 1, since: lines.count }));
  if (answer && !answer.more) await take(answer);
  return answer && (answer.more ?? "");
}

// Gives what a window has; answers what is told of it where it was refused.
async function attempt(text) {
  await give(text);
  return lastRow?.code ? lastRow.told : null;
}

// Takes what the server says, and asks on as long as the program is at work.
async function take(answer) {
  for (let now = answer; now; now = await heard(done("wait", { since: lines.count }))) {
    if (now.count < lines.count) {
      // Another page began another session.
      lines.clear();
      continue;
    }
    show(now);
    if (now.ended || (now.busy === null && now.waiting === 0)) break;
  }
  await renew();
}

function show(now) {
  const isOther = now.version !== state.version;
  state = now;
  document.body.dataset.version = now.version;
  lines.show(now);
  lastRow = now.rows.at(-1) ?? lastRow;
  lastUndone = now.rows.findLast((row) => row.undone.length > 0)?.undone ?? lastUndone;
  byId("standing").textContent = STANDINGS[now.about.standing] ?? "";
  byId("standing").title = now.about.program;
  byId("next").replaceChildren(...nextPanel(now, acts));
  byId("empty").hidden = now.commands > 0;
  tellState(now);
  if (isOther) tellRefusal(now.rows.at(-1));
}

function forgetRefusal() {
  byId("refused").hidden = true;
  picture.mark([]);
}

function tellState({ ended, busy, waiting, asked, commands }) {
  if (ended) {
    notice(`The program has ended: ${ended}.`, [
      button(`Begin it again from its ${plural(commands, "command")}`, again, "main"),
      button("Save the commands", () => saved("session.evats")),
    ]);
  } else if (busy !== null || waiting) {
    const what = asked > 1 ? `${asked - waiting} of ${plural(asked, "command")} are done` : `The program is at work: ${busy ?? ""}`;
    notice(what, [button("Stop", stop)], "busy");
  } else {
    notice("", []);
  }
}

// Where the last command was refused, it is said why over the picture, and the events that the refusal names are marked there.
function tellRefusal(row) {
  const marks = row?.marks ?? [];
  const [reason = "", ...rest] = row?.code ? row.told : [], help = rest.find((line) => line.includes("`")) ?? "";
  byId("refused").replaceChildren(make("p", {}, linked(reason)), make("p", {}, linked(help)));
  byId("refused").hidden = !reason;
  picture.mark(marks);
  if (marks.length) {
    const name = row.reply.at(-1).split(" ").slice(1, 3).join(" ");
    picture.overlay(marks.length > 1 ? [[marks[0], marks[1], name]] : [], "refusal");
    picture.reveal(marks[0]);
  } else if (shown?.kind !== "why") {
    picture.overlay([]);
  }
}

// Asks for the picture where it is another one, and again for what is told.
async function renew(isForced = false) {
  if (pictured !== state.version || isForced) {
    const data = await read("picture", wanted()).catch(() => null);
    if (data) {
      picture.show(data);
      pictured = data.version;
      document.body.dataset.pictured = pictured;
      const count = data.events.filter((row) => !isWaiting(row)).length + Object.keys(data.hosts).length;
      byId("count").textContent = count ? plural(count, "event") : "";
    }
  }
  if (shown && !state.ended) await open(shown.names, true);
}

// What the picture is to have.
function wanted() {
  return { all: Number(byId("all").checked), causes: Number(byId("causes").checked) };
}

function select(name, isSecond) {
  const first = chosen[0] ?? "";
  const isPair = name && first && first !== name && !first.includes(".") && !name.includes(".");
  if (name === null) {
    if (!isChoosingSecond) clear();
  } else if ((isSecond || isChoosingSecond) && isPair) {
    open([first, name]);
  } else {
    open([name]);
  }
}

// Tells what has a name, or how the second of two events came of the first; once more where something happened since.
async function open(names, isAgain = false) {
  if (isChoosingSecond && !isAgain) {
    isChoosingSecond = false;
    tellState(state);
  }
  const isWhy = names.length === 2, name = names[0];
  const asked = isWhy ? read("why", { first: name, second: names[1] }) : read("told", { name });
  const told = await asked.catch((fault) => (isAgain ? null : { title: name, words: [fault.message], lines: [], notes: [] }));
  if (!told) return;
  shown = { names, kind: isWhy ? "why" : "thing" };
  if (!name.includes(".") || picture.rows.has(name)) chosen = names;
  picture.choose(chosen);
  byId("details").replaceChildren(...detailsOf(names, told).flat(Infinity).filter(Boolean));
  if (isWhy) picture.overlay(told.steps ?? [], told.kind === "crossed" ? "refusal" : "why", !isAgain);
  if (isAgain) return;
  byId("details").scrollTop = 0;
  forgetRefusal();
  if (!isWhy) picture.overlay([]);
  picture.reveal(names.at(-1));
}

function detailsOf([name, second], told) {
  if (second && told.steps) return whyDetails(name, second, told, acts);
  if (told.line) return eventDetails(told, picture.rows.get(name)?.row[FOLDED] ?? [], acts);
  const enabled = state.enabled.map(([line]) => line).filter((line) => line.split(" ").includes(name));
  return thingDetails(told, enabled, acts);
}

function clear() {
  if (isChoosingSecond) tellState(state);
  chosen = [];
  shown = null;
  isChoosingSecond = false;
  leave();
  forgetRefusal();
  picture.choose([]);
  picture.overlay([]);
  picture.light([]);
  byId("details").replaceChildren(...introduction());
}

async function hover(name) {
  if (confirming) return;
  const isAsked = name !== null && !name.includes(".") && !state.ended;
  const answer = isAsked ? await read("cone", { name }).catch(() => null) : null;
  if (!confirming) picture.light(answer?.events ?? []);
}

// A bar over the picture that asks before something is done.
function confirm(text, word, act, names) {
  forgetRefusal();
  confirming = { act };
  picture.light(names);
  const main = button(word, agree, "main");
  byId("confirm").replaceChildren(make("p", {}, linked(text)), main, button("Leave it", leave));
  byId("confirm").hidden = false;
  main.focus();
}

function agree() {
  const { act } = confirming;
  leave();
  act();
}

function leave() {
  if (!confirming) return;
  confirming = null;
  byId("confirm").hidden = true;
  picture.light([]);
  byId("picture").focus();
}

// Shows what an undo would take back, and asks; where it is refused it is given as it is, and the refusal is told.
async function askUndo(name, line = `undo-cone ${name}`, words = {}) {
  const answer = await heard(read("cone", { name }));
  if (!answer) return;
  const agreed = () => give(line, { ...words, isAgreed: true });
  const { events } = answer, count = events.length, more = count > MOST_NAMED ? ` and ${count - MOST_NAMED} more` : "";
  if (count === 0) {
    agreed();
  } else if (count === 1) {
    confirm(`This takes back ${events[0]} alone: nothing came of it.`, "Undo it", agreed, events);
  } else {
    const some = `${events.slice(0, MOST_NAMED).join(" ")}${more}`;
    confirm(`This takes back ${count} events, ${events[0]} and what came of it: ${some}.`, `Undo these ${count}`, agreed, events);
  }
}

async function redo(name, how) {
  const answer = await heard(read("redo", { name }));
  if (answer) give(`redo ${answer[how].join(" ")}`);
}

function settle(name, position) {
  const names = picture.data.events.filter((row) => !isWaiting(row) && row[POSITION] <= position).map((row) => row[NAME]);
  confirm(`This settles all events up to ${name}: they can no longer be taken back, redone or moved.`, "Settle them",
    () => give(`settle ${position}`), names);
}

function startWhy(name) {
  chosen = [name];
  picture.choose(chosen);
  isChoosingSecond = true;
  notice("Why? Choose a second event: click it, or go to it with the arrow keys and press Enter.", [button("Leave it", clear)], "busy");
  byId("picture").focus();
}

const acts = {
  steps, clear, redo, settle, startWhy,
  run: (line) => give(line),
  open: (name) => open([name]),
  point: (place) => picture.point(place),
  undo: (name) => askUndo(name),
  exchange: (position) => give(`exchange ${position}`),
  vat: () => vatDialog(state.vats, attempt),
  ask: () => state.vats.length && askDialog(state.vats, vatOfChosen() ?? state.vats.at(-1), attempt),
};

function vatOfChosen() {
  const row = picture.rows.get(picture.host(chosen.at(-1)))?.row;
  return row && picture.data.lanes[row[LANE]][0];
}

const asked = (name, words = {}) => heard(done(name, { since: lines.count, ...words })).then((answer) => answer && take(answer));
const stop = () => asked("stop");
const again = () => asked("again");

async function loadText(text) {
  if (state.commands) {
    const answer = await question("Load a session", `The session that is here has ${plural(state.commands, "command")}, and ends.`,
      [["Load", "load"], ["Save this one first", "save"]]);
    if (!answer) return;
    if (answer === "save") saved("session.evats");
  }
  clear();
  lastUndone = [];
  const answer = await heard(done("load", { text, since: 0 }));
  if (!answer) return;
  lines.clear();
  await take(answer);
  picture.fit();
}

const theme = () => document.documentElement.dataset.theme;

function setTheme(name) {
  document.documentElement.dataset.theme = name;
  byId("theme").textContent = name === "dark" ? "Light" : "Dark";
}

function changeTheme() {
  setTheme(theme() === "dark" ? "light" : "dark");
  localStorage.setItem("theme", theme());
}

const anywhere = {
  "/": () => byId("command").focus(), p: () => byId("picture").focus(), n: () => give("step"), g: () => give("run 1000000"),
  v: acts.vat, a: acts.ask, f: () => picture.fit(true), "+": () => picture.zoomAt(1.25), "=": () => picture.zoomAt(1.25),
  "-": () => picture.zoomAt(0.8), l: () => byId("all").click(), c: () => byId("causes").click(), "?": helpDialog,
  z: () => lastUndone.length && give(`redo ${lastUndone.join(" ")}`), Escape: () => (confirming ? leave() : clear()),
};

const chooseCurrent = (event) => picture.current && select(picture.current, event.shiftKey);

const ofPicture = {
  ArrowRight: () => picture.go(1, 0), ArrowLeft: () => picture.go(-1, 0), ArrowDown: () => picture.go(0, 1), ArrowUp: () => picture.go(0, -1),
  Home: () => picture.toEdge(false), End: () => picture.toEdge(true), Enter: chooseCurrent, " ": chooseCurrent,
};

const ofEvent = {
  u: (row) => askUndo(row[NAME]), r: (row) => redo(row[NAME], "alone"), R: (row) => redo(row[NAME], "whole"),
  x: (row) => acts.exchange(row[POSITION]), s: (row) => settle(row[NAME], row[POSITION]),
  w: (row) => (chosen.length && chosen[0] !== row[NAME] ? open([chosen[0], row[NAME]]) : startWhy(row[NAME])),
};

// The event to which the arrow keys led, or which was chosen last.
function eventAtHand() {
  const row = picture.rows.get(picture.current)?.row;
  return row && !isWaiting(row) ? row : null;
}

function listen() {
  const clicks = {
    save: () => saved("session.evats"), load: () => byId("file").click(), theme: changeTheme, help: helpDialog,
    svg: () => saved("picture.svg", { look: theme(), cone: chosen[0] ?? "", ...wanted() }),
    in: () => picture.zoomAt(1.25), out: () => picture.zoomAt(0.8), fit: () => picture.fit(true), end: () => picture.toEnd(),
  };
  for (const [id, act] of Object.entries(clicks)) byId(id).addEventListener("click", act);
  for (const id of ["all", "causes"]) byId(id).addEventListener("change", () => renew(true));
  byId("file").addEventListener("change", async () => {
    const [file] = byId("file").files;
    byId("file").value = "";
    if (file) loadText(await file.text());
  });
  document.addEventListener("click", (event) => {
    const { name, command } = event.target.closest("[data-name], [data-command]")?.dataset ?? {};
    if (name) open([name]);
    if (command) lines.put(command);
  });
  const numbered = (place) => state.enabled[place] && (() => give(state.enabled[place][0]));
  listenToKeys({ picture: byId("picture"), ofPicture, ofEvent, anywhere, eventAtHand, numbered });
  // Whoever uses keys sees where they are.
  document.addEventListener("keydown", () => document.body.classList.add("keyed"), true);
  document.addEventListener("pointerdown", () => document.body.classList.remove("keyed"), true);
}

// Hears of what happened without this page: the program ended, or another page of this session did something.
async function pulse() {
  const now = await read("pulse").catch((fault) => {
    isGone ||= fault instanceof Gone;
    if (isGone) notice(fault.message, []);
    return null;
  });
  if (now && !now.atWork && (isGone || now.version !== state.version || now.count !== state.count)) {
    const answer = await heard(read("state", { since: lines.count }));
    if (answer) await take(answer);
  }
  setTimeout(pulse, PULSE);
}

function showBeginning() {
  byId("empty").replaceChildren(make("h2", {}, "Nothing has happened yet"),
    make("p", {}, "Vats run programs, one message at a time. Make one, and ask it something; or begin with an example of three."),
    make("div", { class: "acts" }, button("New vat…", acts.vat, "main"), button("An example of three vats", () => give(EXAMPLE)),
      button("Load a session…", () => byId("file").click()), button("Help", helpDialog)));
}

async function begin() {
  setTheme(localStorage.getItem("theme") ?? (matchMedia("(prefers-color-scheme: dark)").matches ? "dark" : "light"));
  listen();
  showBeginning();
  clear();
  await asked("wait", { since: 0 });
  setTimeout(pulse, PULSE);
}

begin();

// Windows in which a vat is made, a vat is asked, a question is put, and the keys are told.

import { byId, make } from "./elements.js";
import { KEYS } from "./keys.js";

const NAME = "[A-Za-z_][A-Za-z_0-9]*";

function openDialog(id, title, ...children) {
  const form = make("form", { method: "dialog" }, make("h2", { id: `${id}-title` }, title), ...children);
  byId(id).replaceChildren(form);
  byId(id).showModal();
  return form;
}

function buttons(id, ...children) {
  return make("div", { class: "acts" }, ...children, make("button", { type: "button", click: () => byId(id).close() }, "Cancel"));
}

const field = (text, input) => make("label", { class: "field" }, text, input);
const note = (text) => make("p", { class: "note" }, text);

// A field for programs, which Control and Enter send; a tab key leaves it, as everywhere.
function programField(id, rows, text) {
  const area = make("textarea", { id, rows, spellcheck: "false", autocapitalize: "off" }, text);
  area.addEventListener("keydown", (event) => {
    if (event.key === "Enter" && (event.ctrlKey || event.metaKey)) {
      event.preventDefault();
      area.form.requestSubmit();
    }
  });
  return area;
}

// What was told where the program refused what the window had.
function refusal(told) {
  return told && make("div", { class: "refusal", role: "alert" }, told.map((line) => make("div", {}, line.replaceAll("`", ""))));
}

// A window for a new vat; where the program refuses it, it is there again with what was typed.
export function vatDialog(vats, send, was = { name: "", known: [], script: "" }) {
  const rules = { required: true, maxlength: 64, pattern: NAME, autocomplete: "off", spellcheck: "false" };
  const name = make("input", { id: "vat-name", ...rules, value: was.name });
  const known = vats.map((vat) => make("label", {},
    make("input", { type: "checkbox", value: vat, checked: was.known.includes(vat) }), vat));
  const script = programField("vat-script", 12, was.script);
  const form = openDialog("vat", "A new vat", refusal(was.told), field("Its name", name),
    vats.length > 0 && make("fieldset", {}, make("legend", {}, "Vats that its script knows, by their names"), known),
    field("Its script", script),
    note("The script runs in the vat's first turn. What its last line gives is what others get of the vat."),
    buttons("vat", make("button", { class: "main" }, "Make it")));
  form.addEventListener("submit", async () => {
    const now = { name: name.value, known: [...form.querySelectorAll("input:checked")].map((box) => box.value), script: script.value };
    const lines = now.script === "" ? [] : now.script.replace(/\n$/, "").split("\n");
    const told = await send([`vat ${now.name} (${now.known.join(" ")}) ${lines.length}`, ...lines].join("\n"));
    if (told) vatDialog(vats, send, { ...now, told });
  });
}

// A window to ask a vat; where the program refuses it, it is there again with what was typed.
export function askDialog(vats, chosen, send, was = { program: "" }) {
  const vat = make("select", { id: "ask-vat" }, vats.map((each) => make("option", { value: each, selected: each === chosen }, each)));
  const program = programField("ask-program", 5, was.program);
  const form = openDialog("ask", "Ask a vat", refusal(was.told), field("The vat", vat), field("A program for it", program),
    note("It waits as a message, and has a turn of its own."),
    buttons("ask", make("button", { class: "main" }, "Ask")));
  form.addEventListener("submit", async () => {
    const told = await send(`ask ${vat.value} ${program.value}\n`);
    if (told) askDialog(vats, vat.value, send, { program: program.value, told });
  });
  program.focus();
  program.setSelectionRange(program.value.length, program.value.length);
}

// A question with answers; gives the one that was chosen, or nothing.
export function question(title, text, answers) {
  const dialog = byId("question");
  openDialog("question", title, make("p", {}, text),
    buttons("question", answers.map(([word, value], place) => make("button", { value, class: place ? null : "main" }, word))));
  dialog.returnValue = "";
  return new Promise((resolve) => {
    dialog.addEventListener("close", () => resolve(dialog.returnValue || null), { once: true });
  });
}

const BEGINNING = `Make a vat: its script defines objects. Ask it something: the question waits as a message. Step: one thing after
another happens, and each is an event in the picture. Choose an event to read it; choose a second one with Shift to see why it came
of the first. Take an event back, and all that came of it goes with it; everything else stays.`;

const SIGNS = [
  ["birth", "a vat is made"], ["ask", "a vat is asked"], ["turn", "a vat takes a message"],
  ["arrive", "a message arrives or goes on, a vat learns"], ["waits", "a message that is not done"], ["undone", "taken back"],
];

export function helpDialog() {
  const table = ([title, keys]) => make("div", {}, make("h3", {}, title),
    make("dl", {}, keys.map(([key, does]) => [make("dt", {}, make("kbd", {}, key)), make("dd", {}, does)])));
  openDialog("keys", "How to use the workbench", make("p", {}, BEGINNING),
    make("p", { class: "signs" }, SIGNS.map(([kind, does]) => make("span", {}, make("i", { class: `sign ${kind}` }), does))),
    make("div", { class: "columns" }, KEYS.map(table)),
    note("Nothing of this page is proved: it shows what the program says."),
    make("div", { class: "acts" }, make("button", { class: "main" }, "Close")));
}

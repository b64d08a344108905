// The transcript, and the line in which commands are typed: with history, completion, and further lines.

import { byId, linked, make, plural, withLinks } from "./elements.js";
import { read } from "./server.js";

const DELIMITER = /[ \t([{,;\n]/;
const LONGEST = 30, MOST_WORDS = 60;

// A row of the transcript: what was given, the reply with what its events were, and what helps.
function rowNode(row, redo) {
  const [line = "", ...script] = row.lines, kind = row.code ? " refused" : "", count = row.undone.length;
  const did = (reply) => row.did[/^ok (e\d+)/.exec(reply)?.[1]];
  const replies = row.reply.map((each) => make("div", {}, withLinks(each), did(each) && make("small", {}, linked(did(each)))));
  const reply = make("div", { class: `reply${kind}` }, replies);
  // What stands below a line that is told stands there exactly.
  const told = row.told.map((each) => make("div", { class: each.startsWith("  ") ? "exact" : null }, linked(each)));
  return make("div", { class: "row" },
    line && make("div", { class: "given" }, make("b", {}, "> "), withLinks(line), script.length > 0 && scriptNode(script)),
    replies.length > LONGEST ? make("details", { open: true }, make("summary", {}, plural(replies.length, "line")), reply) :
      replies.length > 0 && reply,
    told.length > 0 && make("div", { class: `told${kind}` }, told),
    count > 0 && make("button", { type: "button", class: "small", click: () => redo(row.undone) },
      `Redo ${count === 1 ? "it" : `these ${count}`}`));
}

function scriptNode(script) {
  const text = make("pre", {}, script.join("\n"));
  return script.length > 6 ? make("details", {}, make("summary", {}, plural(script.length, "line")), text) : text;
}

function commonStart(words) {
  return words.reduce((start, word) => {
    let length = 0;
    while (length < start.length && start[length] === word[length]) length += 1;
    return start.slice(0, length);
  });
}

export class Console {
  constructor({ send, redo }) {
    Object.assign(this, { send, redo, input: byId("command"), transcript: byId("transcript"), choices: byId("choices") });
    this.count = 0;
    this.history = [];
    this.place = 0;
    // Where what is being given ends, and what waits behind it; what is told of the lines that it wants.
    this.ends = [];
    this.wanted = null;
    this.input.addEventListener("keydown", (event) => this.key(event));
    this.input.addEventListener("input", () => this.changed());
    byId("line").addEventListener("submit", (event) => {
      event.preventDefault();
      this.enter();
    });
    read("history").then((lines) => {
      this.history = [...lines, ...this.history];
      this.place = this.history.length;
    }, () => {});
  }

  // Adds the rows behind those that are there.
  show(state) {
    const isAtEnd = this.transcript.scrollHeight - this.transcript.scrollTop - this.transcript.clientHeight < 40;
    this.transcript.append(...state.rows.map((row) => rowNode(row, this.redo)));
    this.count = state.count;
    if (isAtEnd || state.rows.length) this.transcript.scrollTop = this.transcript.scrollHeight;
  }

  clear() {
    this.transcript.replaceChildren();
    this.count = 0;
  }

  changed() {
    // What the next lines are is told as long as they are typed.
    if (this.wanted) this.tell(this.wanted);
    else this.choices.hidden = true;
    this.input.rows = Math.min(12, this.input.value.split("\n").length);
  }

  put(text) {
    this.wanted = null;
    this.input.value = text;
    this.changed();
    this.input.focus();
  }

  // Gives what was typed up to here, behind what is being given. Whoever types on meanwhile loses nothing.
  async enter() {
    this.ends.push(this.input.value.length);
    if (this.ends.length > 1) return;
    while (this.ends.length) {
      const end = this.ends[0], text = this.input.value.slice(0, end);
      const more = text.trim() ? await this.send(text) : "";
      if (more === null) {
        this.ends = [];
      } else if (more) {
        this.wanted = more;
        this.replace(end, end, "\n");
      } else {
        this.wanted = null;
        this.replace(0, end, "");
        this.keep(text);
      }
    }
  }

  // Puts a text in place of a part of what is typed, and leaves the cursor where it is in the rest.
  replace(begin, end, text) {
    const shift = text.length - (end - begin), cursor = this.input.selectionEnd;
    this.input.setRangeText(text, begin, end);
    const moved = cursor >= end ? cursor + shift : Math.min(cursor, begin);
    this.input.setSelectionRange(moved, moved);
    this.ends = this.ends.slice(1).map((each) => each + shift);
    this.changed();
  }

  keep(text) {
    if (text.trim() && this.history.at(-1) !== text) this.history.push(text);
    this.place = this.history.length;
  }

  tell(...nodes) {
    this.choices.replaceChildren(...nodes);
    this.choices.hidden = false;
  }

  key(event) {
    if (event.key === "Enter" && !event.shiftKey && !event.isComposing) {
      event.preventDefault();
      this.enter();
    } else if (event.key === "Tab" && !event.shiftKey && this.input.value) {
      event.preventDefault();
      this.complete();
    } else if (event.key === "ArrowUp" && !this.input.value.slice(0, this.input.selectionStart).includes("\n")) {
      this.recall(event, -1);
    } else if (event.key === "ArrowDown" && !this.input.value.slice(this.input.selectionEnd).includes("\n")) {
      this.recall(event, 1);
    } else if (event.key === "Escape") {
      event.stopPropagation();
      if (this.choices.hidden) this.input.blur();
      this.choices.hidden = true;
    }
  }

  recall(event, by) {
    const place = this.place + by;
    if (place < 0 || place > this.history.length) return;
    event.preventDefault();
    this.place = place;
    this.put(this.history[place] ?? "");
  }

  async complete() {
    const line = this.input.value.slice(0, this.input.selectionStart).split("\n").at(-1);
    let begin = line.length;
    while (begin > 0 && !DELIMITER.test(line[begin - 1])) begin -= 1;
    const text = line.slice(begin), words = await read("words", { before: line.slice(0, begin), text }).catch(() => []);
    if (!words.length) {
      this.tell("Nothing goes on so.");
      return;
    }
    const start = words.length === 1 ? words[0] : commonStart(words);
    this.input.setRangeText(start, this.input.selectionStart - text.length, this.input.selectionStart, "end");
    this.changed();
    if (words.length > 1) {
      const choice = (word) => make("button", { type: "button", class: "small", click: () => this.take(start, word) }, word);
      const more = words.length > MOST_WORDS ? ` and ${words.length - MOST_WORDS} more` : "";
      this.tell(...words.slice(0, MOST_WORDS).map(choice), more);
    }
  }

  take(start, word) {
    const end = this.input.selectionStart;
    this.input.setRangeText(word, end - start.length, end, "end");
    this.changed();
    this.input.focus();
  }
}

// The picture: what is in view of the events and arrows that the server laid out. Only that is drawn.

import { draw } from "./elements.js";
import { arrowNode, arrowWords, bandNode, eventNode, eventWords, labelNode, stepNode, tipNode } from "./nodes.js";
import { BOX, FROM, HEIGHT_OF_LABEL, LABEL, LEFT, NAME, TO, TOP, WIDTH, arrowKey } from "./rows.js";

// How small and how large the picture gets; below what no text is drawn, from what on it is read well, and how large it gets by itself.
const LEAST = 0.1, MOST = 2.5, LEGIBLE = 0.42, READABLE = 0.75, LARGEST = 1.15;
const MARGIN = 24;
// How many arrows that only pass through are drawn at most.
const MOST_PASSING = 300;
// How long the pointer rests on an event before it is asked what came of it, in milliseconds.
const SLOW = 140;

const EMPTY = { width: 0, height: 0, lanes: [], events: [], arrows: [], hosts: {} };

function clamped(value, least, most) {
  return Math.min(Math.max(value, least), Math.max(least, most));
}

export class Picture {
  constructor(svg, rail, { select, hover }) {
    Object.assign(this, { svg, rail, thumb: rail.firstElementChild, select, hover });
    this.data = EMPTY;
    this.rows = new Map();
    this.zoom = 1;
    this.isFitted = true;
    this.x = MARGIN;
    this.y = MARGIN;
    this.current = null;
    this.chosen = [];
    this.cone = new Set();
    this.marked = new Set();
    this.steps = [];
    this.froms = this.tos = new Float64Array(0);
    this.widest = 0;
    this.drawn = { events: new Map(), arrows: new Map() };
    const layers = ["bands", "arrows", "events", "steps"];
    this.layers = Object.fromEntries(layers.map((name) => [name, draw("g", { class: name })]));
    this.scene = draw("g", {}, ...Object.values(this.layers));
    this.labels = draw("g", { class: "labels" });
    svg.append(this.scene, this.labels);
    this.listen();
    new ResizeObserver(() => (this.isFitted ? this.fit(this.isWhole) : this.request())).observe(svg);
  }

  // What the server laid out, in place of what was there. As long as nobody chose how large it is, it fits; where the latest
  // event was in view, it stays in view.
  show(data) {
    const atEnd = this.atEnd();
    this.data = data;
    this.rows = new Map(data.events.map((row, place) => [row[NAME], { row, place }]));
    this.froms = Float64Array.from(data.arrows, (row) => row[FROM]);
    this.tos = Float64Array.from(data.arrows, (row) => row[TO]);
    this.widest = data.events.reduce((most, row) => Math.max(most, row[WIDTH]), 0);
    for (const nodes of Object.values(this.drawn)) nodes.clear();
    this.layers.events.replaceChildren();
    this.layers.arrows.replaceChildren();
    this.layers.bands.replaceChildren(...data.lanes.map(bandNode));
    this.labels.replaceChildren(...data.lanes.map(labelNode));
    this.overlay(this.steps, this.stepKind);
    if (this.isFitted) this.fit(this.isWhole);
    else if (atEnd) this.toEnd();
    this.draw();
  }

  get size() {
    return { width: this.svg.clientWidth, height: this.svg.clientHeight };
  }

  // Where the view is allowed to be: some of the picture is always in it.
  clamp() {
    const { width, height } = this.size, room = width - LABEL;
    const wide = this.data.width * this.zoom, high = this.data.height * this.zoom;
    this.x = clamped(this.x, Math.min(MARGIN, room - wide - 3 * MARGIN), MARGIN);
    this.y = high + 2 * MARGIN <= height ? MARGIN : clamped(this.y, height - high - MARGIN, MARGIN / 2);
  }

  atEnd() {
    return this.x + this.data.width * this.zoom <= this.size.width - LABEL + MARGIN;
  }

  // Makes all of it fit in, however small; without that, as much of it as can be read, with the latest events in view.
  fit(isWhole = false) {
    Object.assign(this, { isFitted: true, isWhole });
    const { width, height } = this.size;
    const across = (width - LABEL - 4 * MARGIN) / (this.data.width || 1), along = (height - 2 * MARGIN) / (this.data.height || 1);
    const wanted = Math.min(across, along, LARGEST);
    this.zoom = clamped(wanted, isWhole ? LEAST : READABLE, MOST);
    this.toEnd();
  }

  toEnd() {
    const last = this.data.events.at(-1);
    this.x = -this.data.width * this.zoom;
    this.clamp();
    if (last) this.reveal(last[NAME]);
    this.request();
  }

  pan(x, y) {
    this.isFitted = false;
    this.x += x;
    this.y += y;
    this.request();
  }

  zoomAt(factor, x = this.size.width / 2, y = this.size.height / 2) {
    this.isFitted = false;
    const zoom = clamped(this.zoom * factor, LEAST, MOST), part = zoom / this.zoom;
    this.x = (x - LABEL) - (x - LABEL - this.x) * part;
    this.y = y - (y - this.y) * part;
    this.zoom = zoom;
    this.request();
  }

  request() {
    this.frame ??= requestAnimationFrame(() => {
      this.frame = null;
      this.draw();
    });
  }

  draw() {
    if (!this.size.width) return;
    this.clamp();
    this.scene.setAttribute("transform", `translate(${LABEL + this.x} ${this.y}) scale(${this.zoom})`);
    this.svg.classList.toggle("far", this.zoom < LEGIBLE);
    const left = -this.x / this.zoom, right = (this.size.width - LABEL - this.x) / this.zoom;
    this.sync("events", this.eventsBetween(left, right), (row) => row[NAME], (row) => eventNode(row, this.data.lanes, this));
    this.sync("arrows", this.arrowsBetween(left, right), arrowKey, (row) => arrowNode(row, this));
    this.placeLanes(left, right);
    this.placeThumb(left, right);
  }

  placeLanes(left, right) {
    const from = Math.min(left, 0) - MARGIN, to = Math.max(right, this.data.width) + MARGIN;
    [...this.layers.bands.children].forEach((band) => {
      band.setAttribute("x", from);
      band.setAttribute("width", to - from);
    });
    [...this.labels.children].forEach((label, place) => {
      const [, top, bottom] = this.data.lanes[place], height = (bottom - top) * this.zoom;
      label.setAttribute("transform", `translate(0 ${this.y + top * this.zoom})`);
      label.classList.toggle("low", height < HEIGHT_OF_LABEL);
      label.children[0].setAttribute("height", height);
      label.children[1].setAttribute("y", height / 2 - 7);
      label.children[2].setAttribute("y", height / 2 + (height < HEIGHT_OF_LABEL ? 5 : 11));
    });
  }

  placeThumb(left, right) {
    const whole = this.data.width || 1, width = this.rail.clientWidth;
    const from = clamped(left / whole, 0, 1), to = clamped(right / whole, 0, 1);
    this.rail.classList.toggle("whole", from <= 0 && to >= 1);
    this.thumb.style.width = `${Math.max(18, (to - from) * width)}px`;
    this.thumb.style.transform = `translateX(${Math.min(from * width, width - 18)}px)`;
  }

  eventsBetween(left, right) {
    const events = this.data.events, begin = left - this.widest;
    let low = 0, high = events.length;
    while (low < high) {
      const middle = (low + high) >> 1;
      if (events[middle][LEFT] < begin) low = middle + 1;
      else high = middle;
    }
    const found = [];
    for (; low < events.length && events[low][LEFT] <= right; low += 1) found.push(events[low]);
    return found;
  }

  arrowsBetween(left, right) {
    const found = [];
    let passing = 0;
    for (let place = 0; place < this.froms.length; place += 1) {
      if (this.froms[place] > right || this.tos[place] < left) continue;
      const passes = this.froms[place] < left && this.tos[place] > right;
      if (!passes || (passing += 1) <= MOST_PASSING) found.push(this.data.arrows[place]);
    }
    return found;
  }

  // Has just these rows drawn in a layer.
  sync(layer, rows, keyOf, nodeOf) {
    const nodes = this.drawn[layer], wanted = new Set();
    for (const row of rows) {
      const key = keyOf(row);
      wanted.add(key);
      if (!nodes.has(key)) {
        const node = nodeOf(row);
        nodes.set(key, node);
        this.layers[layer].append(node);
      }
    }
    for (const [key, node] of nodes) {
      if (!wanted.has(key)) {
        node.remove();
        nodes.delete(key);
      }
    }
  }

  redecorate() {
    for (const [name, node] of this.drawn.events) node.setAttribute("class", eventWords(this.rows.get(name).row, this));
    for (const row of this.data.arrows) this.drawn.arrows.get(arrowKey(row))?.setAttribute("class", arrowWords(row, this));
  }

  // The event in whose box one is drawn, or nothing where none is.
  host(name) {
    const host = this.rows.has(name) ? name : this.data.hosts[name];
    return this.rows.has(host) ? host : null;
  }

  choose(names) {
    this.chosen = names;
    if (names.length) this.current = this.host(names.at(-1)) ?? this.current;
    this.redecorate();
  }

  light(names) {
    this.cone = new Set(names);
    this.redecorate();
  }

  mark(names) {
    this.marked = new Set(names);
    this.redecorate();
  }

  // Arrows with texts over all, from event to event: the steps of a why, which come one after another where they are new, or what
  // a refusal names.
  overlay(steps, kind = "why", isNew = false) {
    Object.assign(this, { steps, stepKind: kind });
    this.layers.steps.classList.toggle("coming", isNew);
    const nodes = steps.map(([source, target, text], place) => {
      const [from, to] = [source, target].map((name) => this.rows.get(this.host(name))?.row);
      const label = kind === "refusal" ? text : `${place + 1}${text ? ` · ${text}` : ""}`;
      return from && to && from !== to ? stepNode(from, to, label, kind, place, this) : null;
    });
    this.layers.steps.replaceChildren(...nodes.filter(Boolean));
  }

  // Has one of the steps stand out, or none.
  point(place) {
    for (const step of this.layers.steps.children) step.classList.toggle("pointed", step.dataset.step === String(place));
  }

  // Brings an event into view.
  reveal(name) {
    const found = this.rows.get(this.host(name));
    if (!found) return;
    const { width, height } = this.size, row = found.row;
    const left = this.x + row[LEFT] * this.zoom, right = left + row[WIDTH] * this.zoom;
    if (left < MARGIN || right > width - LABEL - MARGIN) this.x += (width - LABEL) / 2 - (left + right) / 2;
    const top = this.y + row[TOP] * this.zoom, bottom = top + BOX * this.zoom;
    if (top < 0 || bottom > height) this.y += height / 2 - (top + bottom) / 2;
    this.request();
  }

  setCurrent(name) {
    this.current = name;
    this.svg.setAttribute("aria-activedescendant", name ? `event-${name}` : "");
    this.redecorate();
    this.reveal(name);
    this.hover(name);
  }

  // Goes to another event: the next or the one before in the journal, or the nearest in the next row.
  go(along, across) {
    const events = this.data.events;
    if (!events.length) return;
    const place = this.rows.get(this.current)?.place;
    if (place === undefined) {
      this.setCurrent(events.at(-1)[NAME]);
    } else if (along) {
      this.setCurrent(events[clamped(place + along, 0, events.length - 1)][NAME]);
    } else {
      const here = events[place], isBeyond = (row) => (row[TOP] - here[TOP]) * across > 0;
      const distance = (row) => Math.abs(row[TOP] - here[TOP]) * 4 + Math.abs(row[LEFT] - here[LEFT]);
      const beyond = events.filter(isBeyond);
      if (beyond.length) this.setCurrent(beyond.reduce((best, row) => (distance(row) < distance(best) ? row : best))[NAME]);
    }
  }

  toEdge(isEnd) {
    const row = this.data.events.at(isEnd ? -1 : 0);
    if (row) this.setCurrent(row[NAME]);
  }

  listen() {
    const { svg, rail } = this;
    svg.prepend(tipNode());
    svg.addEventListener("wheel", (event) => this.wheel(event), { passive: false });
    svg.addEventListener("pointerdown", (event) => this.press(event));
    svg.addEventListener("pointerover", (event) => this.over(event.target.closest("[data-event]")?.dataset.event ?? null));
    svg.addEventListener("pointerleave", () => this.over(null));
    rail.addEventListener("pointerdown", (event) => this.slide(event));
  }

  wheel(event) {
    event.preventDefault();
    const box = this.svg.getBoundingClientRect();
    if (event.ctrlKey || event.metaKey) {
      this.zoomAt(Math.exp(-event.deltaY / 300), event.clientX - box.left, event.clientY - box.top);
    } else {
      const isHigh = this.data.height * this.zoom > this.size.height;
      const isAcross = event.shiftKey || !isHigh;
      this.pan(-event.deltaX - (isAcross ? event.deltaY : 0), isAcross ? 0 : -event.deltaY);
    }
  }

  press(event) {
    if (event.button !== 0) return;
    const begin = { x: event.clientX, y: event.clientY }, name = event.target.closest("[data-event]")?.dataset.event;
    let last = begin, hasMoved = false;
    this.svg.setPointerCapture(event.pointerId);
    const move = (moved) => {
      hasMoved ||= Math.hypot(moved.clientX - begin.x, moved.clientY - begin.y) > 4;
      if (hasMoved) this.pan(moved.clientX - last.x, moved.clientY - last.y);
      last = { x: moved.clientX, y: moved.clientY };
    };
    const end = (ended) => {
      this.svg.removeEventListener("pointermove", move);
      if (!hasMoved && ended.type === "pointerup") this.select(name ?? null, ended.shiftKey || ended.ctrlKey || ended.metaKey);
    };
    this.svg.addEventListener("pointermove", move);
    this.svg.addEventListener("pointerup", end, { once: true });
    this.svg.addEventListener("pointercancel", end, { once: true });
  }

  slide(event) {
    const move = (moved) => {
      const box = this.rail.getBoundingClientRect(), part = (moved.clientX - box.left) / box.width;
      this.x = (this.size.width - LABEL) / 2 - part * this.data.width * this.zoom;
      this.request();
    };
    this.rail.setPointerCapture(event.pointerId);
    this.rail.addEventListener("pointermove", move);
    this.rail.addEventListener("pointerup", () => this.rail.removeEventListener("pointermove", move), { once: true });
    move(event);
  }

  over(name) {
    clearTimeout(this.waiting);
    this.waiting = setTimeout(() => this.hover(name), name ? SLOW : 0);
  }
}

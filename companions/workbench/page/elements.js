// Elements of the page and of the picture, and texts whose names are links.

const SVG = "http://www.w3.org/2000/svg";
const NAME = /\be\d+(?:\.[mposj]\d+)?\b/g;

function filled(element, attributes, children) {
  for (const [name, value] of Object.entries(attributes)) {
    if (typeof value === "function") element.addEventListener(name, value);
    else if (value === true) element.setAttribute(name, "");
    else if (value !== false && value !== undefined && value !== null) element.setAttribute(name, value);
  }
  // One after another: there may be more than a call takes.
  for (const child of children.flat(Infinity)) {
    if (child !== null && child !== undefined && child !== false) element.append(child);
  }
  return element;
}

// An element; a function among its attributes hears an event.
export function make(tag, attributes = {}, ...children) {
  return filled(document.createElement(tag), attributes, children);
}

export function draw(tag, attributes = {}, ...children) {
  return filled(document.createElementNS(SVG, tag), attributes, children);
}

export const byId = (id) => document.getElementById(id);

// A sentence in which each event, message, object, promise and variable is a link, and each command between backticks one that
// can be taken.
export function linked(text) {
  const parts = String(text).split("`"), nodes = [];
  let place = 0;
  for (; place + 2 < parts.length; place += 2) nodes.push(withLinks(parts[place]), commandNode(parts[place + 1]));
  return [...nodes, withLinks(parts.slice(place).join("`"))];
}

function commandNode(command) {
  const attributes = { type: "button", class: "command", title: "Puts it into the command line", "data-command": command };
  return command.includes(" ") ? make("button", attributes, command) : make("code", {}, command);
}

// A text as it is, in which names are links.
export function withLinks(text) {
  const parts = [];
  let end = 0;
  for (const found of String(text).matchAll(NAME)) {
    parts.push(text.slice(end, found.index), make("button", { type: "button", class: "name", "data-name": found[0] }, found[0]));
    end = found.index + found[0].length;
  }
  return [...parts, String(text).slice(end)];
}

export function plural(count, one, many = `${one}s`) {
  return `${count.toLocaleString("en")} ${count === 1 ? one : many}`;
}

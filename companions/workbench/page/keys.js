// Which key does what, as it is told, and who hears a key.

export const KEYS = [
  ["Anywhere", [
    ["/", "the command line"], ["p", "the picture"], ["n", "step: do what may be done first"], ["g", "run to the end"],
    ["1 to 9", "do that of what may be done"], ["v", "new vat"], ["a", "ask a vat"], ["f", "fit all of the picture"],
    ["+ −", "larger, smaller"], ["l", "show arrivals and learning"], ["c", "show causes"], ["z", "redo what was taken back last"],
    ["Escape", "choose nothing"], ["?", "this help"],
  ]],
  ["In the picture", [
    ["← →", "the event before, the next one"], ["↑ ↓", "the nearest in another row"], ["Home End", "the first, the latest"],
    ["Enter", "choose it, to read it"], ["Shift+Enter, w", "why: choose it as the second, or the next one"],
    ["u", "undo it with what came of it"], ["r", "redo it (Shift: and what came of it)"], ["x", "exchange it with the next one"],
    ["s", "settle up to it"], ["Control+wheel", "larger, smaller"],
  ]],
  ["In the command line", [
    ["Enter", "do it"], ["Shift+Enter", "a new line"], ["Tab", "complete the word"], ["↑ ↓", "what was typed before"],
    ["Escape", "leave it"],
  ]],
];

// Has keys do what the tables say: those of the picture where it has the focus, those of an event where one is at hand. Keys in
// fields and windows, and with a modifier, belong to them and to the browser.
export function listenToKeys({ picture, ofPicture, ofEvent, anywhere, eventAtHand, numbered }) {
  document.addEventListener("keydown", (event) => {
    const isTyping = event.target.closest("input:not([type=checkbox]), textarea, select, dialog");
    if (isTyping || event.ctrlKey || event.metaKey || event.altKey || event.defaultPrevented) return;
    const row = eventAtHand();
    const act = (document.activeElement === picture && ofPicture[event.key]) || (row && ofEvent[event.key]) || anywhere[event.key] ||
      (/^[1-9]$/.test(event.key) && numbered(Number(event.key) - 1));
    if (act) {
      event.preventDefault();
      act(ofEvent[event.key] === act ? row : event);
    }
  });
}

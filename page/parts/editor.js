// The editor: a text area over its own text in colours, with numbers of lines beside it.

const WORDS = new Set("channel process let print sync if else loop forever end spawn".split(" "));
const EVENTS = new Set("send recv always never cancelled joined choose wrap as to guard nack".split(" "));
const TOKEN = /[A-Za-z][A-Za-z0-9_]*|[0-9]+|<-|\s+|[^]/g;

function kind_of(token) {
  if (WORDS.has(token)) return "word";
  if (EVENTS.has(token)) return "event";
  if (/^[0-9]/.test(token)) return "number";
  return /^[A-Za-z\s]/.test(token) ? "" : "mark";
}

// Where a line and a column lie in a text; both are counted from 1.
function place_in(text, line, column) {
  let at = 0;
  for (let number = 1; number < line; number++) {
    const end = text.indexOf("\n", at);
    if (end < 0) break;
    at = end + 1;
  }
  return Math.min(at + column - 1, text.length);
}

class Editor {
  constructor(changed) {
    this.area = found("script");
    this.fault = null;
    this.waiting = new Map();
    this.area.addEventListener("input", () => {
      this.fault = null;
      this.waiting = new Map();
      this.draw();
      changed();
    });
    this.area.addEventListener("scroll", () => this.scroll());
  }

  get text() {
    return this.area.value;
  }

  set text(text) {
    this.area.value = text;
    this.area.scrollTo(0, 0);
    this.fault = null;
    this.waiting = new Map();
    this.draw();
  }

  mark_fault(line, column) {
    this.fault = line ? { line, column } : null;
    this.draw();
  }

  // Marks the lines at which processes wait, each with their names.
  mark_waiting(waiting) {
    this.waiting = waiting;
    this.draw();
  }

  // Moves the cursor to a place, and selects the token that stands there, or without a column the line.
  go_to(line, column = 0) {
    const from = place_in(this.text, line, Math.max(column, 1));
    const rest = this.text.slice(from).split("\n")[0];
    const selected = column ? rest.match(TOKEN)?.[0].trimEnd() ?? "" : rest;
    this.area.focus();
    this.area.setSelectionRange(from, from + selected.length);
    const step = parseFloat(getComputedStyle(this.area).lineHeight);
    this.area.scrollTop = Math.max(0, (line - 4) * step);
    this.scroll();
  }

  scroll() {
    found("colours").style.transform = `translate(${-this.area.scrollLeft}px, ${-this.area.scrollTop}px)`;
    found("lines").scrollTop = this.area.scrollTop;
  }

  draw() {
    this.draw_colours();
    this.draw_lines();
    this.scroll();
  }

  draw_colours() {
    const text = this.text;
    const wrong = this.fault ? place_in(text, this.fault.line, this.fault.column) : -1;
    const pieces = [];
    for (const { 0: token, index } of text.matchAll(TOKEN)) {
      const kind = index === wrong && token.trim() ? "fault" : kind_of(token);
      pieces.push(kind ? made("span", { class: kind }, token) : token);
    }
    found("colours").replaceChildren(...pieces, "\n");
  }

  draw_lines() {
    const count = this.text.split("\n").length;
    const numbers = [];
    for (let line = 1; line <= count; line++) {
      const names = this.waiting.get(line);
      const attributes = {};
      if (names) Object.assign(attributes, { class: "waits", title: `here: ${names.join(", ")}` });
      if (this.fault?.line === line) attributes.class = "faulty";
      numbers.push(made("span", attributes, String(line)));
    }
    found("lines").replaceChildren(...numbers);
  }
}

// What the program prints, read and drawn.

const MOST_OUTCOMES = 200;

function counted(count, noun, plural = "s") {
  return `${count.toLocaleString("en")} ${noun}${count === 1 ? "" : plural}`;
}

function lines_of(text) {
  return text.split("\n").filter((line) => line !== "");
}

// How a process stands, of a line as `b ended 1 #c` or `b faulted kind 1`.
function stand_of(line) {
  const [name, stand, ...rest] = line.split(" ");
  const fault = stand === "faulted" ? ` (${rest.shift()})` : "";
  return { name, stand, fault, printed: rest.join(" ") };
}

// The commits, the ends and the counts of what `run` prints. A commit's line alone begins with a digit.
function read_run(text) {
  const lines = lines_of(text);
  const commits = lines.filter((line) => /^[0-9]/.test(line));
  return { commits, stands: lines.slice(commits.length, -1).map(stand_of) };
}

// The outcomes, who is stranded, and the last line of what `outcomes` prints. A process may be named `stranded`, but what it
// prints is no such word.
function read_outcomes(text) {
  const lines = lines_of(text);
  const last = lines.pop() ?? "";
  const outcomes = [];
  const stranded = [];
  for (const line of lines) {
    const head = /^outcome ([0-9]+)$/.exec(line);
    const [, name, commits] = /^stranded (\w+) (?:after ([0-9]+) commits|states [0-9]+)$/.exec(line) ?? [];
    if (head) outcomes.push({ number: Number(head[1]), stands: [] });
    else if (name) stranded.push({ name, after: commits ? ` after ${counted(Number(commits), "commit")}` : "" });
    else outcomes.at(-1).stands.push(stand_of(line));
  }
  const counts = /^outcomes [0-9]+ (configuration|state)s (?:followed )?([0-9]+) ?(.*)$/.exec(last) ?? [];
  const seen = counted(Number(counts[2]), counts[1] ?? "state");
  return { outcomes, stranded, seen, extent: counts[3] ?? "" };
}

// A text in which what stands between backquotes is code.
function quoted(text) {
  return text.split("`").map((part, at) => (at % 2 ? made("code", {}, part) : part));
}

// A text in which each `line N` leads to that line of the script; where a column stands behind it, to that.
function with_places(text, go_to) {
  const pieces = text.split(/(line [0-9]+(?: column [0-9]+)?)/);
  return pieces.map((piece, at) => {
    if (at % 2 === 0) return piece;
    const [line, column] = piece.match(/[0-9]+/g).map(Number);
    return made_button(piece, () => go_to(line, column), { class: "here" });
  });
}

// A text as the program prints it, with a name at the head of each line that is not indented.
function drawn_text(text, go_to) {
  const block = made("pre", { class: "text", tabindex: "0" });
  for (const line of text.replace(/\n$/, "").split("\n")) {
    const name = /^[A-Za-z]\w*(?= (waits|ended|has not|faulted|is spent))/.exec(line)?.[0] ?? "";
    if (name) block.append(made("span", { class: "name" }, name));
    block.append(...with_places(line.slice(name.length), go_to), "\n");
  }
  return block;
}

function drawn_stand({ stand, fault, printed }) {
  const pieces = [made("span", { class: stand }, stand + fault)];
  if (printed) pieces.push(made("span", { class: "printed" }, printed));
  return pieces;
}

function drawn_ends(stands) {
  const rows = stands.map((it) => made("tr", {},
    made("th", { scope: "row" }, it.name),
    made("td", {}, made("span", { class: it.stand }, it.stand + it.fault)),
    made("td", { class: "mono" }, it.printed)));
  const head = ["Process", "End", "Printed"].map((name) => made("th", { scope: "col" }, name));
  return drawn_table("How each process ends", { head, body: made("tbody", {}, ...rows) });
}

// A table in a frame of its own, so that a wide one scrolls.
function drawn_table(label, { head = [], body, id = "" }) {
  const heads = head.length ? [made("thead", {}, made("tr", {}, ...head))] : [];
  const table = made("table", id ? { id } : {}, ...heads, body);
  return framed(made("div", { class: "wide" }, table), label);
}

// A heading with buttons behind it.
function drawn_title(text, ...buttons) {
  return made("div", { class: "title" }, made("h2", {}, text), ...buttons);
}

function drawn_journal(commits) {
  const text = commits.map((line) => `${line}\n`).join("");
  if (!commits.length) return [drawn_title("Journal"), made("p", { class: "hint" }, "No commit was made.")];
  const block = made("pre", { class: "text", tabindex: "0", "aria-label": "Journal" }, text);
  return [drawn_title("Journal", made_copier("Copy journal", () => text)), block];
}

// The button stands beside the number, so that it is in view with it and lies over nothing.
function drawn_outcome({ number, stands }, follow) {
  const cells = stands.map((it) => made("td", {}, ...drawn_stand(it)));
  const button = made_button("Show", () => follow(number), { class: "plain", "aria-label": `Show outcome ${number}` });
  return made("tr", {}, made("th", { scope: "row" }, String(number), button), ...cells);
}

// A row for each outcome, a column for each process. Of many outcomes the first are drawn, and the rest when asked for.
function drawn_outcomes(outcomes, follow) {
  const names = outcomes[0].stands.map((it) => it.name);
  const head = ["Outcome", ...names].map((name) => made("th", { scope: "col" }, name));
  const body = made("tbody", {}, ...outcomes.slice(0, MOST_OUTCOMES).map((it) => drawn_outcome(it, follow)));
  const block = drawn_table("Outcomes", { head, body });
  const rest = outcomes.slice(MOST_OUTCOMES);
  if (!rest.length) return [block];
  const more = made_button(`Show ${counted(rest.length, "more outcome")}`, () => {
    body.append(...rest.map((it) => drawn_outcome(it, follow)));
    more.remove();
  });
  return [block, made("p", {}, more)];
}

const OF_STRANDED = "A process is stranded where it can never move any more, whatever the others do. One that could move and "
  + "is never chosen is not stranded, nor one that can always take a time-out.";

function drawn_call(asked) {
  return asked ? [made("p", { class: "asked" }, `pcml ${asked.words.join(" ")}`)] : [];
}

// An answer below what came in its place. Of a script that stands there no more it is seen, but not pressed.
function drawn_before({ told, asked, inside }, is_same) {
  const title = drawn_title(is_same ? "The answer before" : "The answer before, of the script as it was then");
  const block = made("section", { class: "before" }, title, made("p", {}, told), ...drawn_call(asked), ...inside);
  block.inert = !is_same;
  return block;
}

function drawn_hint(text) {
  return made("p", { class: "hint" }, text);
}

// A row for each process that is stranded though the run goes on.
function drawn_stranded(stranded, follow) {
  const rows = stranded.map(({ name, after }) => {
    const label = { class: "plain", "aria-label": `Show where ${name} is stranded` };
    return made("tr", {},
      made("th", { scope: "row" }, name),
      made("td", {}, made("span", { class: "stranded" }, `stranded${after}`)),
      made("td", {}, made_button("Show", () => follow(name), label)));
  });
  const title = drawn_title("Stranded, though others go on");
  return [title, drawn_table("Who is stranded", { body: made("tbody", {}, ...rows), id: "stranded" })];
}

// Where the names of the processes stand in a chart: above the lines of life.
const NAMES = { line: "42", top: 26, height: 26 };

// The names once more, over those of the chart, where they stay in view while what is below them scrolls.
function drawn_names(chart) {
  const names = chart.cloneNode(false);
  const width = chart.getAttribute("width");
  names.setAttribute("class", "names");
  names.setAttribute("height", NAMES.height);
  names.setAttribute("viewBox", `0 ${NAMES.top} ${width} ${NAMES.height}`);
  // A share of the width, as the chart may be drawn smaller.
  names.style.marginTop = `${(100 * NAMES.top) / width}%`;
  const texts = [...chart.children].filter((it) => it.localName === "text" && it.getAttribute("y") === NAMES.line);
  names.append(...texts.map((it) => it.cloneNode(true)));
  return names;
}

// The chart's own rules are for black on white. These are of the page, and hold where the chart is drawn.
const CHART_RULES = `
  svg { grid-area: 1 / 1; display: block; width: 100%; height: auto; color: var(--ink); background: var(--paper); }
  .names { position: sticky; top: 0; }
  rect { fill: var(--paper) !important; }
  text { fill: var(--ink); stroke: var(--paper) !important; }
  path { stroke: var(--ink) !important; }
  path.t { stroke: var(--line) !important; }
  marker circle { fill: var(--paper) !important; stroke: var(--ink) !important; }
  marker path { fill: var(--ink) !important; stroke: none !important; }
  circle { fill: var(--ink); }
`;

// The chart, in a tree of its own, so that its rules are none of the page. It is as wide as it was drawn or, if it is to
// fit, as there is room.
function drawn_chart(svg, label) {
  const place = made("div", { class: "picture", role: "img", tabindex: "0" });
  const read = new DOMParser().parseFromString(svg, "image/svg+xml");
  const chart = document.importNode(read.documentElement, true);
  place.style.setProperty("--width", `${chart.getAttribute("width")}px`);
  place.classList.toggle("is-fit", found("fit").checked);
  place.attachShadow({ mode: "open" }).append(chart, drawn_names(chart), made("style", {}, CHART_RULES));
  return framed(place, label);
}

// Lets the charts that are there fit, or not. Their frames look anew on which side there is more.
function fit_charts() {
  for (const place of document.querySelectorAll(".picture")) {
    place.classList.toggle("is-fit", found("fit").checked);
    place.dispatchEvent(new Event("scroll"));
  }
}

// A button that keeps a text as a file.
function made_keeper(label, name, type, text) {
  return made_button(label, () => {
    const address = URL.createObjectURL(new Blob([text], { type }));
    made("a", { href: address, download: name }).click();
    setTimeout(() => URL.revokeObjectURL(address), 1000);
  }, { class: "plain" });
}

// The processes that wait, by the lines at which they do, of what `why` tells.
function waiting_in(text) {
  const waiting = new Map();
  for (const [, name, line] of text.matchAll(/^(\w+) waits at line ([0-9]+)/gm)) {
    const number = Number(line);
    waiting.set(number, [...(waiting.get(number) ?? []), name]);
  }
  return waiting;
}

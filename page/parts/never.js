// What must never happen: the words that ask whether some run leads there, and what is told of the answer.

// The questions by their words, each with the field that says of whom, where it has one.
const FIELDS = { "--faults": "", "--never": "printed", "--left": "behind" };
const OF_ANY_LENGTH = "Asked of runs of any length, whether they end or not.";
// What is told of a line of each kind: that it happens, that it never does, what is not known, and what is meant.
const TOLD = {
  fault: {
    happens: ({ name }) => `${name} faults`,
    never: () => "No process ever faults.",
    asked: () => "a process faults",
    means: OF_ANY_LENGTH,
  },
  printed: {
    happens: ({ name, value }) => `${name} prints ${value}`,
    never: ({ name, value }) => `${name} never prints ${value}.`,
    asked: ({ name, value }) => `${name} prints ${value}`,
    means: OF_ANY_LENGTH,
  },
  left: {
    happens: ({ name }) => `${name} is left behind`,
    never: () => "None of these is ever left behind.",
    asked: () => "one of these is left behind",
    means: "One is left behind where it can never end any more, whatever follows. Who has faulted has ended.",
  },
};

// Names, or other words, with commas between as the program reads them.
function without_gaps(text) {
  return text.trim().replace(/\s*,\s*/g, ",");
}

// The words that ask a question of what its field holds. Of several values each has a word of its own.
function never_words(question, text) {
  if (!FIELDS[question]) return ["outcomes", SCRIPT, question];
  const asked = question === "--never" ? without_gaps(text).split(",") : [without_gaps(text)];
  return ["outcomes", SCRIPT, ...asked.flatMap((it) => [question, it])];
}

// Whether the words ask what must never happen: they take no number of syncs.
function asks_never(words) {
  return Object.hasOwn(FIELDS, words[2] ?? "");
}

// The lines that answer. One that says how much was seen, by its last word, has found no run.
function read_never(text) {
  return lines_of(text).map((line) => {
    const [, word, name, value, states, extent] = /^(\w+) (\w+)(?: (\S+))? states ([0-9]+) ?(\w*)$/.exec(line);
    return { kind: word === "never" ? "printed" : word, name, value, states: Number(states), extent };
  });
}

function what_happens(line) {
  return TOLD[line.kind].happens(line);
}

function told_of_never(line) {
  const { never, asked } = TOLD[line.kind];
  if (!line.extent) return `${what_happens(line)} in some run.`;
  return line.extent === "all" ? never(line) : `Not all was seen, so it is not known whether ${asked(line)}.`;
}

// A button for each line that found a run.
function drawn_happenings(lines, follow) {
  const buttons = lines.filter((it) => !it.extent)
    .map((it) => made_button(`Show how ${what_happens(it)}`, () => follow(it)));
  return buttons.length ? [made("div", { class: "moves" }, ...buttons)] : [];
}

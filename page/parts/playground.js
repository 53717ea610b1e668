// What the page's buttons show: a view for each, of the script as it stands.

const SCRIPT = "script.pcml";
const JOURNAL = "script.journal";
const ROWS = 256;
const MOST_ROWS = 1024;
const SOON_BUSY = 250;
const PAGES = ["language", "about"];
const WITH_JOURNAL = ["why", "chart", "step"];
const WITH_CHART = ["chart", "step"];
// How it is told whether all is as it has to be, by the status: it is, it is not known, some run shows that it is not.
const KINDS = { 0: "met", 1: "open", 3: "fault" };
const AFTER_RUN = "A run shows one outcome. Outcomes tells all, and Step lets you choose.";
// What is told beside the number of syncs: in which view it bounds what, and where nothing does.
const BOUNDS = {
  any: "No bound on syncs.",
  within: "Longer runs are not searched.",
  run: "The run stops a process there.",
  why: "Bounds the run that is shown.",
  chart: "Bounds the run that is shown.",
  step: "Bounds your run.",
};
const ONLY_THESE = "Outcomes that differ in other processes alone are one.";

// Marks the button of a view, and shows the page of that name where there is one.
function show_page(view) {
  for (const button of document.querySelectorAll(".acts button")) {
    button.setAttribute("aria-current", String(button.dataset.view === view));
  }
  for (const page of PAGES) found(page).hidden = page !== view;
}

class Playground {
  constructor(module) {
    this.caller = new Caller(module);
    this.editor = new Editor(() => this.changed());
    this.checking = new Checking(new Caller(module), this.editor);
    this.stepper = new Stepper((words, files) => this.play(words, files), (commits) => this.take(commits));
    this.search = null;
    this.answered = null;
    this.journals = new Journals();
    this.view = "";
    this.turn = 0;
    this.text = "";
  }

  get rows() {
    return rows_of(Number(found("rows").value));
  }

  // What a link and a reload keep.
  get held() {
    return { text: this.editor.text, rows: this.rows, is_within: this.is_within };
  }

  // Whether Outcomes searches the runs of so many syncs a process alone. Runs, and what is shown of one, always have a
  // bound.
  get is_within() {
    return found("extent").value === "within";
  }

  // Keeps what was changed here, which a link in the address does not hold.
  keep_held(is_written) {
    leave_link();
    keep_script(this.held, is_written);
  }

  // Puts a script into the editor.
  load({ text, rows, is_within = false }) {
    found("rows").value = rows;
    found("extent").value = is_within ? "within" : "any";
    found("example").value = "";
    this.editor.text = text;
    keep_script(this.held, false);
    this.checking.now();
  }

  changed() {
    this.keep_held(true);
    this.checking.soon();
    found("example").value = "";
    this.set_old(this.view !== "" && !PAGES.includes(this.view));
  }

  set_old(is_old) {
    found("old").hidden = !is_old;
    this.set_dim(is_old);
  }

  // An answer that is old, or in whose place another comes, is seen but not pressed.
  set_dim(is_dim) {
    found("panel").classList.toggle("is-dim", is_dim);
    found("answer").inert = is_dim;
  }

  // The words with the syncs that a process may make. A search is of runs of any length where they are left out, and
  // any other call has as many as always.
  bounded(words) {
    if (words.includes("--rows")) return words;
    const is_bounded = words[0] === "outcomes" ? this.is_within && !asks_never(words) : this.rows !== ROWS;
    return is_bounded ? [...words, "--rows", String(this.rows)] : words;
  }

  // Calls the program on the script as it stood when the view was asked for.
  async play(words, files = {}) {
    const all = this.bounded(words);
    const given = { [SCRIPT]: this.text, ...files };
    const search = new Search(all, new Gathering(this.caller.module, all, given));
    this.search = search;
    const hear = words[0] === "outcomes" ? (line) => search.hear(line) : null;
    const ended = () => search.gathering.end();
    const answer = await this.caller.call(all, given, hear).finally(ended);
    if (answer.broke || (answer.status !== 0 && answer.out === "")) throw new Refusal(answer, all);
    return { ...answer, words: all };
  }

  // Shows a view. What was under way is stopped: the last button counts.
  async show(view) {
    this.turn += 1;
    const turn = this.turn;
    if (this.caller.open.size) this.caller.stop();
    this.text = this.editor.text;
    this.open_view(view);
    if (PAGES.includes(view)) return this.end_busy();
    this.begin_busy();
    let drawn = null;
    try {
      drawn = await this[view]();
    } catch (error) {
      if (turn === this.turn) drawn = await this.refused(error);
    }
    if (turn === this.turn) this.draw(drawn);
  }

  open_view(view) {
    this.view = view;
    show_page(view);
    const is_page = PAGES.includes(view);
    for (const id of ["choices", "told", "answer"]) found(id).hidden = is_page;
    this.open_choices();
    this.set_old(false);
    if (is_page) found("panel").scrollTop = 0;
  }

  // Of the choices those are seen that count: what must never happen is asked alone.
  open_choices() {
    const { question, view } = this;
    const is_search = view === "outcomes";
    const bound = is_search ? found("extent").value : view;
    found("for-outcomes").hidden = !is_search;
    found("for-extent").hidden = !is_search || question !== "";
    found("for-rows").hidden = bound === "any" || question !== "";
    found("bounds").textContent = BOUNDS[question ? "any" : bound] ?? "";
    found("for-ends").hidden = question !== "";
    found("for-fit").hidden = !WITH_CHART.includes(view);
    found("for-columns").hidden = view !== "chart";
    found("waiting").disabled = this.need !== "";
    this.draw_journals();
    for (const [asking, field] of Object.entries(FIELDS)) {
      if (field) found(field).hidden = asking !== question;
    }
  }

  draw(drawn) {
    const { told, asked, inside, waiting = new Map(), is_fault = false, kind = is_fault ? "fault" : "" } = drawn;
    this.end_busy();
    found("told").textContent = told;
    found("told").className = `told ${kind}`.trim();
    found("answer").replaceChildren(...drawn_call(asked), ...inside);
    this.draw_journals();
    this.editor.mark_waiting(waiting);
    if (!drawn.is_stop) this.answered = { ...drawn, script: this.text };
  }

  // While a call takes long, how long and how far it is, and a button that stops it.
  begin_busy() {
    const began = performance.now();
    clearInterval(this.ticking);
    this.ticking = setInterval(() => {
      if (performance.now() - began < SOON_BUSY || !this.search) return;
      found("busy").hidden = false;
      this.set_dim(true);
      found("busy-text").textContent = `Under way for ${this.search.seconds} s${this.search.how_far}`;
    }, SOON_BUSY);
  }

  end_busy() {
    clearInterval(this.ticking);
    found("busy").hidden = true;
    this.set_dim(!found("old").hidden);
  }

  // VIEWS: each answers what is told, the call that was asked, and what is drawn.

  async run() {
    const answer = await this.play(["run", SCRIPT, "--workers", "1"]);
    const { commits, stands } = read_run(answer.out);
    this.keep("run", "the run", commits);
    const left = stands.filter((it) => it.stand !== "ended");
    const names = left.map((it) => it.name).join(", ");
    const end = left.length ? `Not ended: ${names}.` : "Every process ended.";
    return {
      told: `${counted(commits.length, "commit")}. ${end}`,
      asked: answer,
      inside: [drawn_ends(stands), ...drawn_journal(commits), made("p", { class: "hint" }, AFTER_RUN)],
    };
  }

  // The processes that have to end, as the program reads their names.
  get need() {
    return without_gaps(found("need").value);
  }

  // The word that asks what must never happen, where that is asked.
  get question() {
    return this.view === "outcomes" ? found("never").value : "";
  }

  // Who has to end goes before who is left waiting: the program takes one of the two.
  outcome_words() {
    const words = ["outcomes", SCRIPT];
    const only = without_gaps(found("only").value);
    if (this.need) words.push("--need", this.need);
    else if (found("waiting").checked) words.push("--waiting");
    if (only) words.push("--only", only);
    if (found("first").checked) words.push("--first");
    return words;
  }

  // Which runs are searched.
  get told_extent() {
    return this.is_within ? `within ${counted(this.rows, "sync")} a process` : "of any length";
  }

  async outcomes() {
    if (this.question) return this.never();
    const words = this.outcome_words();
    const answer = await this.play(words);
    const read = read_outcomes(answer.out);
    const { outcomes, stranded, seen, extent } = read;
    const seen_in = `${seen} seen in ${Math.round(answer.milliseconds)} ms, in runs ${this.told_extent}.`;
    const is_asked = stranded.length || (words.includes("--need") && extent.endsWith("for ever"));
    const meant = [...(is_asked ? [OF_STRANDED] : []), ...(words.includes("--only") ? [ONLY_THESE] : [])];
    const hints = [...meant, seen_in, ...lines_of(answer.err)].map(drawn_hint);
    return {
      told: told_of_outcomes(outcomes.length, stranded, extent, words, answer.status),
      kind: words.includes("--need") ? KINDS[answer.status] : "",
      asked: answer,
      inside: [...this.drawn_found(read, words), ...this.drawn_circle(read, words), ...hints],
    };
  }

  // The outcomes that a call of these words told, and who is stranded, each with its run.
  drawn_found({ outcomes, stranded }, words) {
    const follow = (number) => this.follow([...words, "--of", String(number)]);
    const follow_to = (name) => this.follow(["outcomes", SCRIPT, "--need", name]);
    return [
      ...(outcomes.length ? drawn_outcomes(outcomes, follow) : []),
      ...(stranded.length ? drawn_stranded(stranded, follow_to) : []),
    ];
  }

  // A run that goes on for ever. The program keeps one where it tells no outcome, and nobody who is stranded.
  drawn_circle({ outcomes, stranded, extent }, words) {
    if (outcomes.length || stranded.length || !extent.endsWith("for ever")) return [];
    const button = made_button("Show a run that goes on for ever", () => this.follow(words));
    return [made("div", { class: "moves" }, button)];
  }

  // What a call that came to no end had found.
  drawn_so_far() {
    const so_far = this.search?.gathering.found;
    return so_far ? [drawn_title(told_so_far(so_far)), ...this.drawn_found(so_far, so_far.words)] : [];
  }

  // What stays once a call was stopped: what it had found, and the answer that was there before.
  stopped() {
    const { answered } = this;
    const drawn = this.search.stopped();
    drawn.inside.push(...this.drawn_so_far());
    if (!answered) return drawn;
    const is_same = answered.script === this.text;
    drawn.inside.push(drawn_before(answered, is_same));
    return { ...drawn, waiting: is_same ? answered.waiting : new Map() };
  }

  // Whether what must never happen does in some run. While its field is empty, that says what to fill in.
  async never() {
    const field = found(FIELDS[this.question]);
    if (field?.value.trim() === "") return { told: field.title, inside: [] };
    const words = never_words(this.question, field?.value);
    const answer = await this.play(words);
    const lines = read_never(answer.out);
    const seen = `${counted(lines[0].states, "state")} seen in ${Math.round(answer.milliseconds)} ms.`;
    const hints = [TOLD[lines[0].kind].means, seen, ...lines_of(answer.err)].map(drawn_hint);
    const alone = ({ name, value }) => (value ? never_words("--never", `${name}=${value}`) : words);
    return {
      told: lines.map(told_of_never).join(" "),
      kind: KINDS[answer.status],
      asked: answer,
      inside: [...drawn_happenings(lines, (line) => this.follow(alone(line))), ...hints],
    };
  }

  // Draws the journal that leads to an outcome or, where none is told, to where a process is stranded, or to what must
  // never happen. Why and Step go on from there.
  async follow(words) {
    this.turn += 1;
    const turn = this.turn;
    this.begin_busy();
    try {
      const answer = await this.play([...words, "--journal", JOURNAL]);
      const commits = lines_of(answer.files[JOURNAL] ?? "");
      if (syncs_of(commits) > MOST_ROWS) throw new TooLong(commits);
      if (asks_never(words) || !this.is_within) this.make_room(commits);
      this.keep("found", followed_by(words, answer), commits);
    } catch (error) {
      if (turn === this.turn) this.draw(await this.refused(error));
      return;
    }
    if (turn === this.turn) await this.show("chart");
  }

  // A run that a search without a bound finds is of any length. Where a process makes more syncs in it than it may, it
  // may then make these, and the one at which it waits.
  make_room(commits) {
    const rows = Math.min(MOST_ROWS, syncs_of(commits) + 1);
    if (rows <= this.rows) return;
    found("rows").value = rows;
    this.keep_held(false);
  }

  // Of which script, within how many syncs, a journal is that is made now.
  get made() {
    return { script: this.text, rows: this.rows };
  }

  // Keeps what Why, Chart and Step show until another is kept or chosen.
  keep(kind, of, commits) {
    this.journals.keep(kind, of, commits, this.made);
  }

  // The journal that is shown, or that of a run that is made now.
  async shown_journal() {
    if (!this.journals.shown_of(this.made)) await this.run();
    return this.journals.shown;
  }

  // Shows the journals of this script to choose from, where there are several.
  draw_journals() {
    const all = this.journals.fitting(this.made);
    const told = (it) => `${whose(it, this.rows)}: ${counted(it.commits.length, "commit")}`;
    found("journal").replaceChildren(...all.map((it, at) => made("option", { value: at }, told(it))));
    found("journal").value = String(all.indexOf(this.journals.shown));
    found("for-journal").hidden = all.length < 2 || !WITH_JOURNAL.includes(this.view);
  }

  choose_journal() {
    this.journals.shown = this.journals.fitting(this.made)[Number(found("journal").value)];
  }

  of_journal(journal) {
    const { commits } = journal;
    const of = whose(journal, this.rows);
    return commits.length ? `the ${counted(commits.length, "commit")} of ${of}` : `${of}, which made no commit`;
  }

  async why() {
    const journal = await this.shown_journal();
    const answer = await this.play(["why", SCRIPT, JOURNAL], { [JOURNAL]: journal.text });
    return {
      told: `Where each process stands after ${this.of_journal(journal)}.`,
      asked: answer,
      waiting: waiting_in(answer.out),
      inside: [drawn_text(answer.out, (...place) => this.editor.go_to(...place))],
    };
  }

  async chart() {
    const journal = await this.shown_journal();
    const columns = without_gaps(found("columns").value);
    const words = ["chart", SCRIPT, JOURNAL, ...(columns ? ["--only", columns] : [])];
    const answer = await this.play(words, { [JOURNAL]: journal.text });
    const told = `The chart of ${this.of_journal(journal)}.`;
    const keeper = made_keeper("Save as SVG", "chart.svg", "image/svg+xml", answer.out);
    return {
      told,
      asked: answer,
      inside: [
        drawn_chart(answer.out, told),
        made("p", { class: "moves" }, keeper),
        ...drawn_journal(journal.commits),
      ],
    };
  }

  async step() {
    if (!this.journals.shown_of(this.made)) this.journals.keep_own([], this.made);
    const { shown } = this.journals;
    return this.stepper.draw(shown, whose(shown, this.rows));
  }

  // Shows the user's own run, of these commits.
  async take(commits) {
    this.journals.keep_own(commits, this.made);
    await this.show("step");
  }

  // What is told where a call was stopped, broke off, or was refused by the program, or where a run is too long.
  async refused(error) {
    if (error instanceof Stopped) return this.stopped();
    if (error instanceof TooLong) return error.drawn();
    if (error instanceof Refusal) {
      const drawn = await error.drawn(this.checking.caller, this.editor);
      return { ...drawn, inside: [...drawn.inside, ...this.drawn_so_far()] };
    }
    return { told: "The page failed.", is_fault: true, inside: [made("p", {}, String(error))] };
  }
}

// A run in which a process makes more syncs than the page lets one make.
class TooLong extends Error {
  constructor(commits) {
    super("too long");
    this.commits = commits;
  }

  drawn() {
    const told = `In this run a process makes more than ${counted(MOST_ROWS, "sync")}. So only its journal is shown.`;
    return { told, inside: drawn_journal(this.commits) };
  }
}

// A call that the program did not answer, or that broke off.
class Refusal extends Error {
  constructor(answer, words) {
    super("refused");
    this.answer = answer;
    this.words = words;
  }

  // Tells why: of a text that is no script where, and of another fault what it means.
  async drawn(caller, editor) {
    const { broke, err } = this.answer;
    const draw = (told, text) =>
      ({ told, is_fault: true, asked: this, inside: [drawn_text(text, (...place) => editor.go_to(...place))] });
    if (broke) return draw("The call broke off.", broke);
    const number = /^fault ([0-9]+)/.exec(err)?.[1];
    if (!number) return draw("The program refuses this.", err);
    const files = { [SCRIPT]: editor.text };
    const why = await caller.call(["why", SCRIPT], files);
    if (why.status !== 0) return draw("This text is no script.", why.out);
    const meaning = await caller.call(["explain", number], files);
    return draw("The program refuses this.", `${err}\n${meaning.out}`);
  }
}

// What the journal leads to that was kept: the outcome of the number that was asked for, or else what is told first.
function followed_by(words, { out, err }) {
  if (asks_never(words)) return `a run to where ${what_happens(read_never(out)[0])}`;
  if (words.includes("--of")) return `outcome ${words.at(-1)}`;
  const { outcomes, stranded } = read_outcomes(out);
  const [, first] = /^goes on at commit ([0-9]+)$/m.exec(err) ?? [];
  if (first) return `a run that goes round for ever from commit ${first} on`;
  return outcomes.length ? `outcome ${outcomes[0].number}` : `a run that leaves ${stranded[0]?.name} stranded`;
}

// Which outcomes are told, by the words of the call.
function kind_of_outcomes(count, words) {
  const outcomes = counted(count, "outcome");
  if (words.includes("--need")) return `${outcomes} in which one of these has not ended`;
  return words.includes("--waiting") ? `${outcomes} that leave${count === 1 ? "s" : ""} somebody waiting` : outcomes;
}

// What is told of the outcomes that were found before a search was stopped.
function told_so_far({ outcomes, seen, extent, words }) {
  const kind = kind_of_outcomes(outcomes.length, words);
  return extent.startsWith("all") ? `${kind}, and that is all` : `Found in the first ${seen}: ${kind}`;
}

// What is told of those that have to end, where no outcome keeps one from it.
function told_of_needed(stranded, extent, status) {
  const within = /^all within ([0-9]+) syncs/.exec(extent);
  if (stranded.length) return `${stranded[0].name} may be stranded, though others go on.`;
  if (status !== 0) return "None of these gets stuck in what was seen. Not all was, so it is not known of the rest.";
  if (within) return `Each of these ends in every outcome within ${counted(Number(within[1]), "sync")} a process.`;
  return extent.endsWith("for ever") ? "None of these is ever stranded." : "Each of these ends in each run.";
}

// How all runs end, as the last line tells it.
function told_ending(extent) {
  const [, ending] = /^all, (.+)$/.exec(extent) ?? [];
  return ending ? ` ${ending[0].toUpperCase()}${ending.slice(1)}.` : "";
}

function told_of_stranded(stranded) {
  return stranded.length ? ` May be stranded: ${stranded.map((it) => it.name).join(", ")}.` : "";
}

function told_of_outcomes(count, stranded, extent, words, status) {
  const kind = kind_of_outcomes(count, words);
  if (extent === "first") return `${kind}, the first that was found. The search stopped there.`;
  if (words.includes("--need") && count === 0) return told_of_needed(stranded, extent, status) + told_ending(extent);
  const [, within] = /^all within ([0-9]+) syncs/.exec(extent) ?? [];
  if (within) return `${kind}, and that is all within ${counted(Number(within), "sync")} a process.`;
  if (extent.startsWith("all")) return `${kind}, and that is all.${told_ending(extent)}${told_of_stranded(stranded)}`;
  return `${kind}. The search was cut, so there may be more.`;
}

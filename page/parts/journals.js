// The journals that were made of the script: the last run, the last one that a search led to, and those that the user
// made step by step. Why, Chart and Step show one of them. None takes the place of the user's own.

const OWN = "your own run";

// How many syncs the process makes in these commits that makes the most.
function syncs_of(commits) {
  const numbers = commits.flatMap((line) => [...line.matchAll(/\.([0-9]+)\.[0-9]/g)]).map((it) => Number(it[1]));
  return numbers.reduce((most, number) => Math.max(most, number + 1), 0);
}

class Journals {
  constructor() {
    this.kept = [];
    this.shown = null;
  }

  // Keeps the journal of a script with these syncs a process, and shows it. Of another kind than the user's own there
  // is one; of his own as many as he made, but no empty one.
  keep(kind, of, commits, { script, rows }) {
    const is_left = (it) => (it.kind === "own" ? it.commits.length > 0 : it.script === script && it.kind !== kind);
    const text = commits.map((line) => `${line}\n`).join("");
    this.shown = { kind, of, commits, text, script, rows, syncs: syncs_of(commits) };
    this.kept = [...this.kept.filter(is_left), this.shown];
  }

  // Keeps a run of the user's own. Where one is shown this is how it goes on, else it is a further one.
  keep_own(commits, made) {
    const shown = this.shown_of(made);
    const is_own = shown?.kind === "own";
    if (is_own) this.kept = this.kept.filter((it) => it !== shown);
    this.keep("own", is_own ? shown.of : this.next_name(made), commits, made);
  }

  next_name({ script }) {
    const count = this.kept.filter((it) => it.kind === "own" && it.script === script && it.commits.length).length;
    return count ? `${OWN} ${count + 1}` : OWN;
  }

  // Those of a script in which no process makes more syncs than this.
  fitting({ script, rows }) {
    return this.kept.filter((it) => it.script === script && it.syncs <= rows);
  }

  // Which is shown of a script; none where another script stands, or where it has more syncs.
  shown_of(made) {
    return this.fitting(made).includes(this.shown) ? this.shown : null;
  }
}

// Whose commits a journal has. Whoever ran with another number of syncs might have gone on, or not have come there.
function whose({ kind, of, rows }, rows_now) {
  return kind !== "own" && rows !== rows_now ? "an earlier run" : of;
}

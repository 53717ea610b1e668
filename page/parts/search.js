// The call that is under way: for how long and, where it is a search, what the program told of it so far.

const STATES = /^([0-9]+) states seen, ([0-9]+) open$/;

class Search {
  constructor(words, gathering) {
    this.words = words;
    this.gathering = gathering;
    this.began = performance.now();
    this.count = 0;
    this.told = null;
  }

  // A line that the program tells: another search begins, or this one is so far.
  hear(line) {
    const [, seen, open] = STATES.exec(line) ?? [];
    if (!seen) this.count += 1;
    this.told = seen ? { seen: counted(Number(seen), "state"), open: Number(open).toLocaleString("en") } : null;
    if (seen) this.gathering.reach(Number(seen));
  }

  get seconds() {
    return Math.floor((performance.now() - this.began) / 1000);
  }

  // Behind the first search another looks for who is stranded.
  get how_far() {
    const which = this.count > 1 ? " in the second search" : "";
    const { found } = this.gathering;
    const so_far = found ? `; ${counted(found.outcomes.length, "outcome")} found so far` : "";
    return this.told ? `: ${this.told.seen} seen${which}, ${this.told.open} of them still to look at${so_far}` : which;
  }

  // What is left on the page once it was stopped: how far it was, and what makes it shorter.
  stopped() {
    const hints = this.words[0] === "outcomes" ? [this.told_so_far(), this.told_shorter()] : [
      "A run is shorter where a process may make fewer syncs.",
    ];
    const told = `Stopped after ${counted(this.seconds, "second")}.`;
    return { told, asked: this, inside: hints.map(drawn_hint), is_stop: true };
  }

  told_so_far() {
    const not_known = "The answer is not known.";
    if (!this.told) return `The program had not told yet how many states it had seen. ${not_known}`;
    const { seen, open } = this.told;
    const which = this.count > 1 ? "The second search, for who is stranded," : "The search";
    return `${which} had seen ${seen}, with ${open} of them still to look at. ${not_known}`;
  }

  told_shorter() {
    if (this.words.includes("--rows")) return "A search is shorter where a process may make fewer syncs.";
    return asks_never(this.words) ? "A search is shorter where fewer messages are sent."
      : "A search is shorter where fewer messages are sent, or within a bound.";
  }
}

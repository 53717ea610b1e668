// What a search has found so far. The program tells outcomes once it has seen all. So beside a search that takes long
// another one, in a worker of its own, looks at as many states as had been seen when it began, then at as many as have
// been seen meanwhile. What the last of them told is there where the search is stopped.

// Whether a call tells outcomes, of which some may be found long before the last. At the first it stops by itself.
function tells_outcomes(words) {
  return words[0] === "outcomes" && !asks_never(words) && !words.includes("--first") && !words.includes("--journal");
}

class Gathering {
  constructor(module, words, files) {
    this.module = module;
    this.words = words;
    this.files = files;
    this.is_wanted = tells_outcomes(words);
    this.limit = 0;
    this.caller = null;
    // The answer to the last of these calls, as it was read, with its words.
    this.found = null;
  }

  // The search has seen so many states.
  async reach(seen) {
    if (!this.is_wanted || seen <= this.limit || this.caller?.open.size) return;
    this.caller ??= new Caller(this.module);
    this.limit = seen;
    const words = [...this.words, "--limit", String(seen)];
    try {
      const { out, broke } = await this.caller.call(words, this.files);
      if (!broke && out) this.found = { ...read_outcomes(out), words };
    } catch {
      // It was ended, or has no worker or no memory: then nothing more is found.
    }
  }

  end() {
    this.is_wanted = false;
    this.caller?.close();
  }
}

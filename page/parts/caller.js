// Calls of the program, in workers of the browser.

// A module of one memory with addresses of 64 bits, which browsers without them refuse.
const WIDE_MEMORY = [0, 0x61, 0x73, 0x6d, 1, 0, 0, 0, 5, 3, 1, 4, 1];

function has_wide_memory() {
  return typeof WebAssembly === "object" && WebAssembly.validate(new Uint8Array(WIDE_MEMORY));
}

// The bytes of a text of base64. `Uint8Array.from` takes ten times as long.
function bytes_of(text) {
  const letters = atob(text);
  const bytes = new Uint8Array(letters.length);
  for (let at = 0; at < letters.length; at++) bytes[at] = letters.charCodeAt(at);
  return bytes;
}

// The bytes behind a text of base64 that was packed by gzip or, in links, by deflate. It fails where they are more.
async function unpacked(text, form, most) {
  const reader = new Blob([bytes_of(text)]).stream().pipeThrough(new DecompressionStream(form)).getReader();
  const parts = [];
  let length = 0;
  for (let step = await reader.read(); !step.done; step = await reader.read()) {
    parts.push(step.value);
    length += step.value.length;
    if (length > most) throw new Error("it is too long");
  }
  return new Uint8Array(await new Blob(parts).arrayBuffer());
}

async function compiled_module() {
  return WebAssembly.compile(await unpacked(found("module").textContent, "gzip", Infinity));
}

class Stopped extends Error {}

// Asks one call after another of a worker. A call that is stopped ends with its worker, and the next has a new one.
// The module may still be on its way: calls wait for it.
class Caller {
  constructor(module) {
    this.module = module;
    this.source = URL.createObjectURL(new Blob([found("program").textContent], { type: "text/javascript" }));
    this.number = 0;
    this.open = new Map();
    this.begin();
  }

  begin() {
    const worker = new Worker(this.source);
    worker.onmessage = ({ data }) => {
      const asked = this.open.get(data.number);
      // A message may still come of a worker that was ended.
      if (!asked) return;
      if ("line" in data) {
        asked.hear(data.line);
        return;
      }
      this.open.delete(data.number);
      asked.resolve(data);
    };
    worker.onerror = ({ message }) => this.fail(new Error(message));
    this.worker = worker;
    this.module.then((module) => worker.postMessage({ module }), (error) => this.fail(error));
  }

  // What a call of the program came to, as bytes. The files are bytes by their names. Where somebody hears, he is told
  // how far a search is while it is under way.
  ask(words, files, hear = null) {
    this.number += 1;
    const { number, worker } = this;
    return new Promise((resolve, reject) => {
      this.open.set(number, { resolve, reject, hear });
      this.module.then(() => worker.postMessage({ number, words, files, is_heard: hear !== null }), reject);
    });
  }

  // The same as texts.
  async call(words, files, hear = null) {
    const encoder = new TextEncoder();
    const decoder = new TextDecoder();
    const bytes = Object.entries(files).map(([name, text]) => [name, encoder.encode(text)]);
    const answer = await this.ask(words, Object.fromEntries(bytes), hear);
    const kept = Object.entries(answer.files).map(([name, text]) => [name, decoder.decode(text)]);
    return {
      ...answer,
      out: decoder.decode(answer.out),
      err: decoder.decode(answer.err),
      files: Object.fromEntries(kept),
    };
  }

  stop() {
    this.close();
    this.begin();
  }

  // Ends the worker, and with it what was asked of it.
  close() {
    this.worker.terminate();
    this.fail(new Stopped());
  }

  // Ends all calls that are open.
  fail(error) {
    const open = [...this.open.values()];
    this.open.clear();
    for (const { reject } of open) reject(error);
  }
}

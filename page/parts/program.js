// The program in a worker: what it asks of a system, as functions over files in memory. Each call is a new instance of
// the module, so nothing of one call is left for the next.
"use strict";

const MISSING = 2;
const BAD_FILE = 9;
const AGAIN = 11;
const EXISTS = 17;
const OPEN = { write: 0o1, create: 0o100, only_new: 0o200, empty: 0o1000 };
// Where in a struct statx of Linux something lies.
const TOLD = { mode: 28, number: 32, length: 40 };
const REGULAR_FILE = 0o100644;
const NO_PATH = 0x1000;
const FIRST_FILE = 3;
const WAKE = 1;
const PRIVATE = 128;
const ERRORS = 2;
// What the program tells of a search while it is under way, where its standard error is a terminal.
const PROGRESS = /^(?:a state takes |[0-9]+ states seen, )/;
// How far it is stands in one line, which is cleared before it changes.
const CLEARED = "\r\x1b[K";
const HOW_FAR = /^[0-9]+ states seen, [0-9]+ open$/;

const encoder = new TextEncoder();
const decoder = new TextDecoder();
let compiled = null;

// Thrown through the module, where the program ends before it comes back.
class Ended extends Error {
  constructor(status) {
    super("ended");
    this.status = status;
  }
}

function joined(parts) {
  const whole = new Uint8Array(parts.reduce((sum, part) => sum + part.length, 0));
  let at = 0;
  for (const part of parts) {
    whole.set(part, at);
    at += part.length;
  }
  return whole;
}

// What one call sees: its words, its files by name, and its streams. The standard input is empty. The standard error is
// a terminal where somebody is told how far a search is.
class System {
  constructor(words, files, tell_line) {
    this.words = ["pcml", ...words];
    this.tell_line = tell_line;
    this.decoder = new TextDecoder();
    this.unended = "";
    this.files = new Map();
    this.opened = new Map();
    this.streams = { 1: [], 2: [] };
    this.numbers = 0;
    for (const [name, bytes] of Object.entries(files)) this.make(name, bytes);
  }

  make(name, bytes) {
    this.numbers += 1;
    const file = { number: this.numbers, bytes };
    this.files.set(name, file);
    return file;
  }

  bytes_at(at, length) {
    return new Uint8Array(this.memory.buffer, Number(at), Number(length));
  }

  name_at(at) {
    const bytes = new Uint8Array(this.memory.buffer, Number(at));
    return decoder.decode(bytes.slice(0, bytes.indexOf(0)));
  }

  fail(error) {
    this.set_error(error);
    return -1;
  }

  word(number, to, room) {
    const word = this.words[Number(number)];
    if (word === undefined) return -1n;
    const bytes = encoder.encode(word);
    const length = Math.min(bytes.length, Number(room));
    this.bytes_at(to, length).set(bytes.subarray(0, length));
    return BigInt(bytes.length);
  }

  open(name_at, flags) {
    const name = this.name_at(name_at);
    let file = this.files.get(name);
    if (file && flags & OPEN.only_new) return this.fail(EXISTS);
    // There are no folders, so no file can be made in one.
    if (!file && (!(flags & OPEN.create) || name.includes("/"))) return this.fail(MISSING);
    file ??= this.make(name, new Uint8Array());
    if (flags & OPEN.empty) file.bytes = new Uint8Array();
    const handle = FIRST_FILE + this.opened.size;
    this.opened.set(handle, { file, at: 0 });
    return handle;
  }

  read(handle, to, room) {
    if (handle === 0) return 0n;
    const opened = this.opened.get(handle);
    if (!opened) return BigInt(this.fail(BAD_FILE));
    const part = opened.file.bytes.subarray(opened.at, opened.at + Number(room));
    this.bytes_at(to, part.length).set(part);
    opened.at += part.length;
    return BigInt(part.length);
  }

  write(handle, from, length) {
    const part = this.bytes_at(from, length).slice();
    if (this.tell_line && handle === ERRORS) {
      this.hear(part);
      return length;
    }
    if (this.streams[handle]) {
      this.streams[handle].push(part);
      return length;
    }
    const opened = this.opened.get(handle);
    if (!opened) return BigInt(this.fail(BAD_FILE));
    opened.file.bytes = joined([opened.file.bytes, part]);
    return length;
  }

  // Of the standard error tells how far a search is, line by line, and keeps what is no such line.
  hear(part) {
    const lines = (this.unended + this.decoder.decode(part, { stream: true })).split("\n").map((line) => this.heard(line));
    this.unended = lines.pop();
    for (const line of lines) {
      if (PROGRESS.test(line)) this.tell_line(line);
      else this.streams[ERRORS].push(encoder.encode(`${line}\n`));
    }
  }

  // Tells each text of a line that changes, once it is whole, and gives what else stands there.
  heard(line) {
    const texts = line.split(CLEARED);
    for (const text of texts) {
      if (HOW_FAR.test(text)) this.tell_line(text);
    }
    const last = texts.at(-1);
    return HOW_FAR.test(last) ? "" : last;
  }

  // What was told on a stream.
  told_on(stream) {
    const rest = stream === ERRORS ? [encoder.encode(this.unended)] : [];
    return joined([...this.streams[stream], ...rest]);
  }

  // The time since this worker began, as a struct timespec.
  time(_clock, to) {
    const now = performance.now();
    const told = new DataView(this.memory.buffer, Number(to), 16);
    told.setBigInt64(0, BigInt(Math.floor(now / 1000)), true);
    told.setBigInt64(8, BigInt(Math.floor((now % 1000) * 1e6)), true);
    return 0;
  }

  // Tells of a file that it is a regular one, how long it is, and its number.
  tell(handle, name_at, flags, _wanted, to) {
    const opened = flags & NO_PATH ? this.opened.get(handle) : null;
    const file = opened ? opened.file : this.files.get(this.name_at(name_at));
    if (!file) return this.fail(MISSING);
    const told = new DataView(this.memory.buffer, Number(to), 256);
    for (let at = 0; at < told.byteLength; at += 8) told.setBigUint64(at, 0n);
    told.setUint16(TOLD.mode, REGULAR_FILE, true);
    told.setBigUint64(TOLD.number, BigInt(file.number), true);
    told.setBigUint64(TOLD.length, BigInt(file.bytes.length), true);
    return 0;
  }

  rename(from_at, to_at) {
    const from = this.name_at(from_at);
    const file = this.files.get(from);
    if (!file) return this.fail(MISSING);
    this.files.delete(from);
    this.files.set(this.name_at(to_at), file);
    return 0;
  }

  remove(name_at) {
    return this.files.delete(this.name_at(name_at)) ? 0 : this.fail(MISSING);
  }

  // There is one thread: nobody is there to be woken, and who would wait until a word changes has to see it changed.
  wait_or_wake(at, what, seen) {
    if (Number(what) % PRIVATE === WAKE) return 0n;
    const is_changed = new DataView(this.memory.buffer).getUint32(Number(at), true) !== Number(seen);
    if (is_changed) return BigInt(this.fail(AGAIN));
    throw new Error("it waits for a thread, and there is no other");
  }

  // The functions by the names that the module knows.
  named() {
    const done = () => 0;
    return {
      rattle_arg: (number, to, room) => this.word(number, to, room),
      rattle_env: () => -1n,
      rattle_env_at: () => -1n,
      open: (name, flags) => this.open(name, flags),
      read: (handle, to, room) => this.read(handle, to, room),
      write: (handle, from, length) => this.write(handle, from, length),
      __write: (handle, from, length) => this.write(handle, from, length),
      close: done,
      isatty: (handle) => Number(this.tell_line !== null && handle === ERRORS),
      clock_gettime: (clock, to) => this.time(clock, to),
      statx: (...all) => this.tell(...all),
      rename: (from, to) => this.rename(from, to),
      unlink: (name) => this.remove(name),
      fsync: done,
      fdatasync: done,
      fchmod: done,
      chown: done,
      syscall: (_number, at, what, seen) => this.wait_or_wake(at, what, seen),
      _exit: (status) => { throw new Ended(status); },
    };
  }
}

// What the module takes in. A function that a page has no answer for ends the call that comes to it.
function imports(system) {
  const known = system.named();
  const all = {};
  for (const { name } of WebAssembly.Module.imports(compiled)) {
    all[name] = known[name] ?? (() => { throw new Error(`the page has no ${name}`); });
  }
  return { env: all };
}

// Runs the program. Its status is null where it did not come to an end by itself, and `broke` says why.
function run(words, files, tell_line) {
  const system = new System(words, files, tell_line);
  const began = performance.now();
  let status = null;
  let broke = "";
  try {
    const instance = new WebAssembly.Instance(compiled, imports(system));
    system.memory = instance.exports.memory;
    system.set_error = instance.exports.rattle_set_errno;
    status = instance.exports.main(0, 0n);
  } catch (error) {
    if (error instanceof Ended) status = error.status;
    else broke = String(error);
  }
  const kept = Object.fromEntries([...system.files].map(([name, file]) => [name, file.bytes]));
  const [out, err] = [system.told_on(1), system.told_on(ERRORS)];
  return { status, broke, out, err, files: kept, milliseconds: performance.now() - began };
}

self.onmessage = ({ data }) => {
  const { module, number, words, files, is_heard } = data;
  const tell_line = is_heard ? (line) => self.postMessage({ number, line }) : null;
  if (module) compiled = module;
  else self.postMessage({ number, ...run(words, files, tell_line) });
};

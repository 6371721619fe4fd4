// The calls of include/ssz.h over the module that `build` makes: bytes in, bytes and numbers out.
// Nothing here knows SSZ: it copies bytes to the module's memory and back, and throws the status of
// a call that did not do its job.

export const OK = 0, NO_HANDLE = 1, NO_TYPE = 2, TOO_LONG = 3, INVALID = 4, BAD_SCHEMA = 5, SYNTAX = 6,
  BAD_PATH = 7,
  ABSENT = 8, BAD_PROOF = 9, UNLIKE = 10, NO_MEMORY = 11, NO_ROOM = 12, REFUSED = 13, NO_PLACE = 17,
    BAD_JSON = 18;

// Where the answers of calls stand, from the start of a block of the module's memory.
const FAULT = 0n, ROOT = 16n, PAIR = 48n, LENGTH = 64n, SCRATCH = 72;

const text = new TextEncoder(), untext = new TextDecoder();
const bytesOf = (it) => (typeof it === "string" ? text.encode(it) : it);

/** A call that did not do its job: its status, and the code and position of ssz_fault. */
export class SszError extends Error {
  constructor(status, code = 0, position = 0) {
    super(`status ${status}, code ${code}, position ${position}`);
    Object.assign(this, { name: "SszError", status, code, position });
  }
}

/** The module, with its memory. */
export class Ssz {
  /** From the bytes of a module. It imports nothing. */
  static async load(bytes) {
    return new Ssz((await WebAssembly.instantiate(bytes, {})).instance.exports);
  }

  constructor(exports) {
    this.calls = exports;
    this.scratch = this.room(SCRATCH);
  }

  get memorySize() {
    return this.calls.memory.buffer.byteLength;
  }

  room(length) {
    const at = this.calls.heap_alloc(BigInt(Math.max(1, length)));
    if (at === 0n) throw new SszError(NO_MEMORY);
    return at;
  }

  free(at) {
    this.calls.heap_free(at);
  }

  /** A window on the memory, good until the next call that may take memory. */
  view(at, length) {
    return new Uint8Array(this.calls.memory.buffer, Number(at), length);
  }

  /** Copies bytes in, where they stay until `free`. */
  hold(bytes) {
    const at = this.room(bytes.length);
    this.view(at, bytes.length).set(bytes);
    return { at, length: bytes.length };
  }

  number(from) {
    return new DataView(this.calls.memory.buffer).getBigUint64(Number(this.scratch + from), true);
  }

  fault() {
    const view = new DataView(this.calls.memory.buffer, Number(this.scratch + FAULT), 16);
    return new SszError(view.getUint32(0, true), view.getUint32(4, true),
      Number(view.getBigUint64(8, true)));
  }

  // Makes a call: of strings, bytes and what `hold` gave the pointer and the length are passed,
  // numbers as they are.
  status(name, words) {
    const copied = [];
    try {
      const given = words.flatMap((it) => {
        if (typeof it === "bigint" || typeof it === "number") return [it];
        const held = typeof it.at === "bigint" ? it : this.hold(bytesOf(it));
        if (held !== it) copied.push(held.at);
        return [held.at, BigInt(held.length)];
      });
      return this.calls[name](...given);
    } finally {
      for (const at of copied) this.free(at);
    }
  }

  /** Makes a call whose last pointer is the fault's; what it does not do is thrown. */
  call(name, ...words) {
    if (this.status(name, [...words, this.scratch + FAULT]) !== OK) throw this.fault();
  }

  /** Makes a call that writes 32 bytes, or two numbers, or one. */
  root(name, ...words) {
    this.call(name, ...words, this.scratch + ROOT);
    return this.view(this.scratch + ROOT, 32).slice();
  }
  pair(name, ...words) {
    this.call(name, ...words, this.scratch + PAIR);
    return [this.number(PAIR), this.number(PAIR + 8n)];
  }
  one(name, ...words) {
    this.call(name, ...words, this.scratch + LENGTH);
    return this.number(LENGTH);
  }

  /**
   * Makes a call that copies to room, which is made anew where there is too little: what `hold`
   * would give of it.
   */
  kept(name, guess, words) {
    for (let size = guess; ; size = Number(this.number(LENGTH))) {
      const at = this.room(size);
      try {
        this.call(name, ...words, at, BigInt(size), this.scratch + LENGTH);
        return { at, length: Number(this.number(LENGTH)) };
      } catch (why) {
        this.free(at);
        if (why.status !== NO_ROOM) throw why;
      }
    }
  }
  /** The same as a copy outside the module's memory. */
  copied(name, guess, words) {
    const { at, length } = this.kept(name, guess, words);
    const own = this.view(at, length).slice();
    this.free(at);
    return own;
  }

  /**
   * Whether the proof that a text says leads to a root: OK, UNLIKE, BAD_PROOF or another status.
   */
  verify(root, proof) {
    const held = this.hold(root);
    try {
      return this.status("ssz_verify", [held.at, proof]);
    } finally {
      this.free(held.at);
    }
  }
}

// A handle: two words of memory, which hold something from `begin` on until `end`.
class Handle {
  constructor(ssz, begin, end, schema) {
    Object.assign(this, { ssz, end, at: ssz.room(16) });
    ssz.view(this.at, 16).fill(0);
    try {
      ssz.call(begin, this.at, schema);
    } catch (why) {
      ssz.free(this.at);
      throw why;
    }
  }

  free() {
    this.ssz.calls[this.end](this.at);
    this.ssz.free(this.at);
  }
}

/** A schema: what there is to ask of bytes. `type` is the number that `type` gave of a name. */
export class Schema extends Handle {
  constructor(ssz, schema) {
    super(ssz, "ssz_schema_read", "ssz_schema_free", schema);
  }
  type(name) {
    return this.ssz.one("ssz_type", this.at, name);
  }
  check(type, bytes) {
    this.ssz.call("ssz_check", this.at, type, bytes);
  }
  root(type, bytes) {
    return this.ssz.root("ssz_root", this.at, type, bytes);
  }
  gindex(type, path) {
    const [low, high] = this.ssz.pair("ssz_gindex", this.at, type, path);
    return low + (high << 64n);
  }
  /** Where a part stands, as [start, end]; null of a bit and of a length. */
  place(type, bytes, path) {
    try {
      const [start, length] = this.ssz.pair("ssz_place", this.at, type, bytes, path).map(Number);
      return [start, start + length];
    } catch (why) {
      if (why.status === NO_PLACE) return null;
      throw why;
    }
  }
  part(type, bytes, path) {
    return this.ssz.copied("ssz_part", 256, [this.at, type, bytes, path]);
  }
  /** The encoding of a type's default. */
  default(type) {
    return this.ssz.copied("ssz_default", 256, [this.at, type]);
  }
  /** The encoding of the value whose JSON text some bytes are, and the other way round. */
  ofJson(type, json) {
    const given = bytesOf(json);
    return this.ssz.copied("ssz_of_json", given.length, [this.at, type, given]);
  }
  toJson(type, bytes) {
    return untext.decode(this.ssz.copied("ssz_to_json", 4 * bytes.length + 64, [this.at, type, bytes]));
  }
}

/** A session: versions of values by their names. */
export class Session extends Handle {
  constructor(ssz, schema) {
    super(ssz, "ssz_session_start", "ssz_session_end", schema);
  }
  load(name, type, bytes) {
    this.ssz.call("ssz_session_load", this.at, name, type, bytes);
  }
  bytes(name, path, guess = 256) {
    return this.ssz.copied("ssz_session_bytes", guess, [this.at, name, path]);
  }
  /** The same in the module's memory, as `hold` gives it. */
  held(name, path, guess) {
    return this.ssz.kept("ssz_session_bytes", guess, [this.at, name, path]);
  }
  set(name, path, bytes) {
    this.ssz.call("ssz_session_set", this.at, name, path, bytes);
  }
  append(name, path, bytes) {
    this.ssz.call("ssz_session_append", this.at, name, path, bytes);
  }
  pop(name, path) {
    this.ssz.call("ssz_session_pop", this.at, name, path);
  }
  choose(name, path, selector, bytes) {
    this.ssz.call("ssz_session_choose", this.at, name, path, selector, bytes);
  }
  fork(name, other) {
    this.ssz.call("ssz_session_fork", this.at, name, other);
  }
  drop(name) {
    this.ssz.call("ssz_session_drop", this.at, name);
  }
  compact() {
    this.ssz.call("ssz_session_compact", this.at);
  }
  nodes() {
    return Number(this.ssz.one("ssz_session_nodes", this.at));
  }
  root(name) {
    return this.ssz.root("ssz_session_root", this.at, name);
  }

  /**
   * The reply to a statement of docs/formats.md, without its line feed; a refusal is a reply too.
   */
  run(line) {
    const { ssz } = this;
    const status = ssz.status("ssz_session_run",
      [this.at, line, ssz.scratch + LENGTH, ssz.scratch + FAULT]);
    if (status !== OK && status !== REFUSED) throw ssz.fault();
    const length = Number(ssz.number(LENGTH));
    return untext.decode(ssz.copied("ssz_session_reply", length, [this.at])).trimEnd();
  }

  /** The reply, which is no refusal: that is thrown. */
  must(line) {
    const reply = this.run(line);
    const refused = /^refused \d+ (\d+) \w+(?: [FJ]?(\d+))?(?: (\d+))?$/.exec(reply);
    if (!refused) return reply;
    const [, code, first, position] = refused.map(Number);
    throw code === 11 ? new SszError(INVALID, first, position) : new SszError(REFUSED, code);
  }
}

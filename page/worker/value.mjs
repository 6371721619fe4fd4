// The value that is looked at: its bytes in the module's memory, and its versions in a session,
// each one edit on from the one before. They share what they have in common, so that undo is a step
// back.
import { find, countOf, childOf } from "../lib/parts.mjs";
import { hexOf } from "../lib/hex.mjs";

// So many nodes more than after the last time, and twice as many, before those not needed are given
// up.
const MANY = 1_000_000;

export class Value {
  /** Takes the place of held bytes, which encode a value of the type of a number. */
  constructor(ssz, schema, type, held, root) {
    Object.assign(this, { ssz, schema, type, held, session: null, made: 0, at: 0 });
    this.number = schema.type(type.calls);
    this.versions = [{ name: null, does: "as given", root, nodes: null, pairs: null }];
  }

  get length() {
    return this.held.length;
  }
  /** A window on the bytes, good until the next call. */
  get bytes() {
    return this.ssz.view(this.held.at, this.held.length);
  }
  get version() {
    return this.versions[this.at];
  }

  free() {
    this.ssz.free(this.held.at);
    this.session?.free();
  }

  /** The part at a path; null where there is none. */
  look(path) {
    return find(this.type, this.bytes, path);
  }
  find(path) {
    const found = this.look(path);
    if (!found) throw new Error(`there is no part ${path || "/"}`);
    return found;
  }
  count(part) {
    return countOf(part.type, this.bytes, part.from, part.to);
  }
  child(part, i) {
    return childOf(part.type, this.bytes, part.from, part.to, i);
  }

  gindex(path) {
    return path ? this.schema.gindex(this.number, path) : 1n;
  }
  place(path) {
    return this.schema.place(this.number, this.held, path || "/");
  }
  /**
   * The encoding of a part: of the session where there is one, which need not go over all bytes
   * again.
   */
  part(path) {
    if (this.session) return this.session.bytes(this.version.name, path || "/");
    return this.schema.part(this.number, this.held, path || "/");
  }

  /** The session, with the value as a tree of nodes in it. */
  tree(makeSession, tell = () => {}) {
    if (!this.session) {
      tell("making the tree of nodes");
      const session = makeSession();
      try {
        this.made = 1;
        session.load("v1", this.type.calls, this.held);
        tell("hashing the tree");
        const root = hexOf(session.root("v1"));
        if (root !== this.version.root) throw new Error(`the root of the tree is another: 0x${root}`);
      } catch (why) {
        session.free();
        throw why;
      }
      this.session = session;
      this.kept = session.nodes();
      this.version.name = "v1";
    }
    return this.session;
  }

  /**
   * Does an edit on a fork of the version, and goes on to it. `act` makes the call, by its name.
   */
  edit(does, act, tell) {
    const { session } = this, name = `v${this.made + 1}`;
    const nodes = session.nodes(), hashed = this.hashed();
    session.fork(this.version.name, name);
    let root = null;
    try {
      act(session, name);
      tell("hashing what is new");
      root = hexOf(session.root(name));
    } catch (why) {
      session.drop(name);
      throw why;
    }
    this.made++;
    const made = { name, does, root, nodes: session.nodes() - nodes, pairs: this.hashed() - hashed };
    for (const it of this.versions.splice(this.at + 1)) session.drop(it.name);
    this.versions.push(made);
    this.go(this.versions.length - 1, tell);
    this.tidy();
  }

  // Nodes that no version needs are given up where there are many since the last time.
  tidy() {
    if (this.session.nodes() < 2 * this.kept + MANY) return;
    this.session.compact();
    this.kept = this.session.nodes();
  }

  /** Goes to a version: its bytes come out of the tree. */
  go(at, tell) {
    tell("reading the bytes out of the tree");
    const held = this.session.held(this.versions[at].name, "/", this.held.length + 64);
    this.ssz.free(this.held.at);
    this.held = held;
    this.at = at;
  }

  hashed() {
    return Number(this.session.must("hashes").slice("hashes ".length));
  }
}

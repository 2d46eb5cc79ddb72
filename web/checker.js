// The proved checker, as a WebAssembly module, called as include/hs_check.h calls it. No part of it decides anything: it
// lays both texts into the module's memory, calls, and reads the answer and the structs that the calls wrote.

/** As much of a file is read, as by hs_check: no text that is longer can be accepted. */
const MOST = 16384;

/** What hs_key and hs_headers answer where there is no such thing. */
const ABSENT = 1;

/** Whether this engine has memories of 64 bits: the smallest module with one. */
function hasMemory64() {
  try {
    return WebAssembly.validate(new Uint8Array([0, 97, 115, 109, 1, 0, 0, 0, 5, 3, 1, 4, 1]));
  } catch {
    return false;
  }
}

/** The module's bytes. */
function moduleBytes() {
  return Uint8Array.from(atob(MODULE), (it) => it.charCodeAt(0));
}

class Checker {
  /** A checker of the module's bytes. The module imports nothing: it can reach nothing but its own memory. */
  static async open(bytes = moduleBytes()) {
    const { instance } = await WebAssembly.instantiate(bytes, {});
    return new Checker(instance);
  }

  constructor(instance) {
    this.calls = instance.exports;
    this.memory = instance.exports.memory;
    // Below it lie the stack and the constants.
    const base = Number(instance.exports.__heap_base.value);
    this.committeeAt = (base + 15) & ~15;
    this.verdictAt = this.committeeAt + MOST;
    this.shownAt = this.verdictAt + MOST;
  }

  /** Lays a text at its place, and gives its pointer and length as the module takes them. */
  lay(at, text) {
    if (text.length > MOST) throw new RangeError("the text is too long");
    new Uint8Array(this.memory.buffer, at, text.length).set(text);
    return [BigInt(at), BigInt(text.length)];
  }

  shown(length) {
    return new DataView(this.memory.buffer, this.shownAt, length);
  }

  /** What hs_check answers, and what it found where that is 0. */
  check(committee, verdict) {
    const of = [...this.lay(this.committeeAt, committee), ...this.lay(this.verdictAt, verdict)];
    const answer = this.calls.hs_check(...of, BigInt(this.shownAt));
    if (answer !== 0) return { answer };
    const at = this.shown(16);
    return { answer, view: at.getBigUint64(0, true), replica: at.getUint32(8, true), rule: at.getUint32(12, true) };
  }

  /** What hs_check_vote answers: 0 where the vote, as bytes, is good. */
  checkVote(committee, vote) {
    return this.calls.hs_check_vote(...this.lay(this.committeeAt, committee), ...this.lay(this.verdictAt, vote));
  }

  /** What hs_check_endorsement answers: 0 where the endorsement is good. */
  checkEndorsement(committee, endorsement) {
    return this.calls.hs_check_endorsement(...this.lay(this.committeeAt, committee), ...this.lay(this.verdictAt, endorsement));
  }

  /** The SHA-256 digest of a text, in digits. */
  digest(text) {
    this.calls.hs_digest(...this.lay(this.verdictAt, text), BigInt(this.shownAt));
    return hex(this.shown(32), 0, 32);
  }

  /** A committee as it is shown; its replicas only where it is one. */
  committee(committee) {
    const of = this.lay(this.committeeAt, committee);
    const answer = this.calls.hs_committee(...of, BigInt(this.shownAt));
    if (answer !== 0) return { answer };
    const at = this.shown(56);
    const shown = {
      answer,
      total: at.getBigUint64(0, true),
      quorum: at.getBigUint64(8, true),
      n: at.getUint32(16, true),
      weighted: at.getUint32(20, true) === 1,
      chain: hex(at, 24, 32),
      replicas: [],
    };
    for (let replica = 0; replica < shown.n; replica++) {
      const keys = [];
      let key = this.key(of, replica, 0);
      for (const { weight } = key; key !== null; key = this.key(of, replica, keys.length)) {
        keys.push({ keyId: key.keyId, root: key.root });
        shown.replicas[replica] = { weight, keys };
      }
    }
    return shown;
  }

  /** A key of a replica; null where the committee has none such. */
  key(of, replica, key) {
    if (this.calls.hs_key(...of, replica, key, BigInt(this.shownAt)) === ABSENT) return null;
    const at = this.shown(56);
    return { weight: at.getUint32(0, true), keyId: hex(at, 8, 16), root: hex(at, 24, 32) };
  }

  /** What a verdict says, whether or not it proves that; null where it can't be read. */
  verdict(verdict) {
    const of = this.lay(this.verdictAt, verdict);
    if (this.calls.hs_verdict(...of, BigInt(this.shownAt)) !== 0) return null;
    const at = this.shown(136);
    const vote = (from) => ({
      view: at.getBigUint64(from, true),
      key: at.getUint32(from + 8, true),
      index: at.getUint32(from + 12, true),
      id: hex(at, from + 16, 32),
    });
    return {
      first: vote(0),
      second: vote(48),
      chain: hex(at, 96, 32),
      replica: at.getUint32(128, true),
      rule: at.getUint32(132, true),
      headers: this.headers(of),
    };
  }

  /** The headers of a verdict; null where it has none that can be read. */
  headers(of) {
    if (this.calls.hs_headers(...of, BigInt(this.shownAt)) === ABSENT) return null;
    const at = this.shown(240);
    const header = (from) => ({
      view: at.getBigUint64(from, true),
      parentView: at.getBigUint64(from + 8, true),
      id: hex(at, from + 16, 32),
      parent: hex(at, from + 48, 32),
    });
    return { first: header(0), parent: header(80), second: header(160) };
  }
}

function hex(view, from, length) {
  let digits = "";
  for (let i = from; i < from + length; i++) digits += view.getUint8(i).toString(16).padStart(2, "0");
  return digits;
}

/** The line that the program hs_check prints, and its status. */
function lineOf(judged) {
  if (judged.answer < 0) return `fault committee ${-judged.answer} ${COMMITTEE_REFUSALS[-judged.answer].name}, status 2`;
  if (judged.answer > 0) return `refused ${judged.answer} ${REFUSALS[judged.answer].name}, status 1`;
  return `accepted replica ${judged.replica} rule ${judged.rule} view ${judged.view}, status 0`;
}

if (typeof module !== "undefined") {
  module.exports = { Checker, MOST, REFUSALS, COMMITTEE_REFUSALS, lineOf, hasMemory64, moduleBytes };
}

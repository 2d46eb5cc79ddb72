// The steps of a lineage, judged as `hs_follow C0 --lineage DIR` judges them. The module answers whether a committee's file is one, each
// signature, bound key ids and each digest, and that is proved. The rest of a step is judged here, in the order of docs/REFUSALS.md,
// "handover_steps", and not proved: examples/python/second_lineage.py reads like it, and web/run compares the two.

const HEADER = 84;
const ENTRY = 2 + 1 + 1452;
const CERTIFICATE_HEAD = 42;
const RENEWAL_HEAD = 36;
const MOST_HEADERS = 4096;
const MOST_ENTRIES = 31;

/** What each piece of a step is, and how much of it is read: as hs_follow reads it. */
const PIECES = { hsc: MOST, hsr: 45184, hsh: 479598 };

/** How many numbers after a step that is missing are looked at. */
const LOOKED_AT = 16;

/** The step is refused: number and name, as hs_follow prints them. */
class Refused extends Error {
  constructor(number) {
    super(`${number} ${STEP_REFUSALS[number].name}`);
    this.number = number;
  }
}

const [COMMITTEE, OLD_KEY, PROOF_FORM, PROOF, OTHER_FILE, RENEWAL_FORM, RENEWAL] = [2, 3, 4, 5, 6, 7, 8];

function demand(isSo, number) {
  if (!isSo) throw new Refused(number);
}

// ---- time

/** So many milliseconds go by at the most until a page can do something else. */
const MOST_AT_ONCE = 50;
let breathed = 0;

/** Lets the page breathe, if it is time. */
async function breathe() {
  if (performance.now() - breathed < MOST_AT_ONCE) return;
  await new Promise((then) => setTimeout(then));
  breathed = performance.now();
}

/** Whether all of them are good, one after the other. */
async function areAll(many, isGood) {
  for (const one of many) {
    await breathe();
    if (!(await isGood(one))) return false;
  }
  return true;
}

// ---- bytes

const viewOf = (text) => new DataView(text.buffer, text.byteOffset, text.length);
const u16At = (text, at) => viewOf(text).getUint16(at);
const u32At = (text, at) => viewOf(text).getUint32(at);
const u64At = (text, at) => viewOf(text).getBigUint64(at);
const hexOf = (text) => hex(viewOf(text), 0, text.length);
const bytesOf = (digits) => Uint8Array.from(digits.match(/../g), (it) => parseInt(it, 16));
const beginsWith = (text, magic) => text.length >= magic.length && Array.from(magic).every((it, i) => text[i] === it.charCodeAt(0));

function joined(...parts) {
  const text = new Uint8Array(parts.reduce((sum, it) => sum + it.length, 0));
  let at = 0;
  for (const part of parts) {
    text.set(part, at);
    at += part.length;
  }
  return text;
}

// ---- committees

/** A committee's file with what the module shows of it; null if it is none. */
function readCommittee(checker, text) {
  const shown = checker.committee(text);
  return shown.answer === 0 ? { ...shown, text } : null;
}

const slotsOf = (committee) => committee.replicas.map((_, slot) => slot);
const weightOf = (committee, slots) => slots.reduce((sum, slot) => sum + BigInt(committee.replicas[slot].weight), 0n);
const keysOf = (committee, slot) => (slot < committee.n ? committee.replicas[slot].keys.map(({ keyId, root }) => keyId + root) : []);

/** Whether the slot has the same keys in both committees. */
const isKept = (old, next, slot) => slot < Math.min(old.n, next.n) && keysOf(old, slot).join() === keysOf(next, slot).join();

/** No key of the old committee, but in slots that are kept while the others weigh a quorum. */
function checkKeys(old, next) {
  const mayKeep = weightOf(old, slotsOf(old).filter((slot) => !isKept(old, next, slot))) >= old.quorum;
  const taken = new Set(slotsOf(old).flatMap((slot) => keysOf(old, slot)));
  for (const slot of slotsOf(next)) {
    demand((mayKeep && isKept(old, next, slot)) || !keysOf(next, slot).some((key) => taken.has(key)), OLD_KEY);
  }
}

// ---- light proofs: docs/FORMATS.md, "Light proof"; docs/DEFINITIONS.md, "Light proofs"

function readHeader(checker, text) {
  const view = u64At(text, 4), parentView = u64At(text, 12);
  demand(beginsWith(text, "HSB1") && (parentView < view || (view === 0n && parentView === 0n)), PROOF_FORM);
  return { view, id: checker.digest(text), parentView, parent: hexOf(text.subarray(20, 52)), payload: text.subarray(52, HEADER) };
}

/** The certificate at this place, and where it ends; refused by this number. */
function readCertificate(text, at, number) {
  demand(at + CERTIFICATE_HEAD <= text.length, number);
  const view = u64At(text, at), count = u16At(text, at + 40);
  const end = at + CERTIFICATE_HEAD + ENTRY * count;
  demand(end <= text.length, number);
  const votes = Array.from({ length: count }, (_, k) => {
    const from = at + CERTIFICATE_HEAD + ENTRY * k;
    return { replica: u16At(text, from), signer: text.subarray(from, from + 3), signature: text.subarray(from + 3, from + ENTRY) };
  });
  demand(votes.every((it, k) => k === 0 || votes[k - 1].replica < it.replica), number);
  demand(view === 0n ? count === 0 : count >= 1 && count <= MOST_ENTRIES, number);
  // The view and the id stand in a vote as they do here.
  return { view, id: hexOf(text.subarray(at + 8, at + 40)), ballot: text.subarray(at, at + 40), votes, end };
}

/** The headers and the three certificates. */
function readProof(checker, text) {
  demand(text.length >= 8 && beginsWith(text, "HSH1"), PROOF_FORM);
  const above = u32At(text, 4);
  let at = 8 + HEADER * (above + 1);
  demand(above >= 2 && above <= MOST_HEADERS && at <= text.length, PROOF_FORM);
  const headers = Array.from({ length: above + 1 }, (_, k) => readHeader(checker, text.subarray(8 + HEADER * k, 8 + HEADER * (k + 1))));
  const certificates = [];
  for (let c = 0; c < 3; c++) {
    certificates.push(readCertificate(text, at, PROOF_FORM));
    at = certificates[c].end;
  }
  demand(at === text.length, PROOF_FORM);
  return { headers, certificates };
}

/** Whether the certificate has good votes by a quorum on the header. */
async function isGood(checker, old, { view, id, ballot, votes }, header) {
  const voters = votes.map((it) => it.replica);
  return view === header.view && id === header.id && voters.every((it) => it < old.n) && weightOf(old, voters) >= old.quorum
    && areAll(votes, ({ signer, signature }) => checker.checkVote(old.text, joined(signer, ballot, signature)) === 0);
}

/** That the old committee handed over to the new one. */
async function checkProof(checker, old, next, text) {
  const { headers, certificates } = readProof(checker, text);
  const [first] = headers, last = headers.slice(-3);
  demand(first.view > 0n && beginsWith(first.payload, "HSN1"), PROOF);
  demand(last.every((it, k) => it.view === last[0].view + BigInt(k)), PROOF);
  demand(headers.every((it, k) => k === 0 || (it.parentView === headers[k - 1].view && it.parent === headers[k - 1].id)), PROOF);
  demand(await areAll([0, 1, 2], (c) => isGood(checker, old, certificates[c], last[c])), PROOF);
  demand(hexOf(first.payload.subarray(4)) === checker.digest(next.text).slice(0, 56), OTHER_FILE);
}

// ---- renewals: docs/FORMATS.md, "Renewal"; docs/DEFINITIONS.md, "Renewals"

/** The chain and the file's digest that it names, and of each replica its key's number and signature. */
function readRenewal(text) {
  demand(text.length >= RENEWAL_HEAD + CERTIFICATE_HEAD && beginsWith(text, "HSR1"), RENEWAL_FORM);
  const { view, id, votes, end } = readCertificate(text, RENEWAL_HEAD, RENEWAL_FORM);
  demand(end === text.length && view === 1n, RENEWAL_FORM);
  return { chain: hexOf(text.subarray(4, 36)), digest: id, signed: new Map(votes.map((it) => [it.replica, it])) };
}

/** Whether the slot's next keys are bound to their places, and a key of the slot signed for them. */
function isSignedFor(checker, old, next, slot, signed) {
  const seal = signed.get(slot);
  if (seal === undefined) return false;
  const keys = keysOf(next, slot).map((key) => bytesOf(`0000000600000004${key}`));
  const head = new Uint8Array([...Array.from("HSE1", (it) => it.charCodeAt(0)), ...bytesOf(old.chain), slot >> 8, slot & 255, keys.length]);
  return checker.checkEndorsement(old.text, joined(head, ...keys, seal.signer.subarray(2), seal.signature)) === 0;
}

/** That the new committee renews the old one by these bytes; and how much the new slots weigh. */
async function checkRenewal(checker, old, next, text) {
  const { chain, digest, signed } = readRenewal(text);
  const shape = (it) => [hexOf(it.text.subarray(0, 4)), ...it.replicas.map(({ weight, keys }) => `${weight}*${keys.length}`)].join();
  const newSlots = slotsOf(next).filter((slot) => !isKept(old, next, slot));
  demand(chain === old.chain && digest === checker.digest(next.text) && shape(old) === shape(next), RENEWAL);
  demand(await areAll(newSlots, (slot) => isSignedFor(checker, old, next, slot, signed)), RENEWAL);
  demand(weightOf(old, newSlots) >= old.quorum, RENEWAL);
  return weightOf(old, newSlots);
}

// ---- steps

/** A good step: the committee that follows, what each slot is in it, and its line. */
async function judgeStep(checker, old, number, { hsc, hsr, hsh }) {
  const next = readCommittee(checker, hsc);
  demand(next !== null, COMMITTEE);
  checkKeys(old, next);
  await checkProof(checker, old, next, hsh ?? new Uint8Array(0));
  const weight = hsr === null ? null : await checkRenewal(checker, old, next, hsr);
  const ways = slotsOf(next).map((slot) => (isKept(old, next, slot) ? "kept" : weight === null ? "by hand" : "new"));
  const how = weight === null ? "by hand" : `new ${weight} of ${old.total}`;
  return { committee: next, ways, line: `step ${number} chain ${next.chain} ${how}` };
}

/** A lineage from a committee's file on, judged step by step, and no further than it is asked. `pieces` has how many steps there are, and
 * reads them: `count`, `later` and `read(N, NAME)`, which answers null where there is no such piece. */
class Lineage {
  constructor(checker, first, pieces) {
    this.checker = checker;
    this.first = readCommittee(checker, first);
    this.pieces = pieces;
    this.places = new Map([[this.first.chain, 0]]);
    this.steps = [];
    this.refused = null;
    this.judging = null;
  }

  committee(place) {
    return place === 0 ? this.first : this.steps[place - 1].committee;
  }

  /** After how many of the steps that were judged the committee of this chain comes; null if after none. */
  placeOf(chain) {
    return this.places.get(chain) ?? null;
  }

  /** Whether no further step can be judged. */
  get isOver() {
    return this.refused !== null || this.steps.length === this.pieces.count;
  }

  /** Judges the next step. Whoever asks meanwhile waits for the same one. */
  judgeNext() {
    this.judging ??= this.judgeStep().finally(() => { this.judging = null; });
    return this.judging;
  }

  async judgeStep() {
    const number = this.steps.length + 1;
    const [hsc, hsr, hsh] = await Promise.all(Object.keys(PIECES).map((name) => this.pieces.read(number, name)));
    try {
      const step = await judgeStep(this.checker, this.committee(number - 1), number, { hsc, hsr, hsh });
      this.steps.push(step);
      if (!this.places.has(step.committee.chain)) this.places.set(step.committee.chain, number);
    } catch (error) {
      if (!(error instanceof Refused)) throw error;
      this.refused = error;
    }
  }

  /** The line by which hs_follow ends, once all is judged. */
  get lastLine() {
    const next = this.steps.length + 1;
    if (this.refused !== null) return `step ${next} refused ${this.refused.message}`;
    return this.pieces.later === null ? `followed ${this.steps.length}` : `step ${this.pieces.later} is there without step ${next}`;
  }

  get lines() {
    return this.steps.map((it) => it.line);
  }

  /** What the replica's slot is in each of the first steps, as hs_show prints it. */
  waysOf(replica, place) {
    return this.steps.slice(0, place).map((it, k) => `step ${k + 1} slot ${replica} ${it.ways[replica] ?? "absent"}`);
  }
}

if (typeof module !== "undefined") Object.assign(module.exports, { Lineage, STEP_REFUSALS });

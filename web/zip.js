// The folder of a lineage as one file: a zip without compression. Of the file the directory at its end is read, and then each piece where it
// is asked for. That a piece is what its maker wrote is not looked at, nor its checksum: signatures decide.

const ENDED = 0x06054b50, LISTED = 0x02014b50, BEGUN = 0x04034b50;
const END_LENGTH = 22, LISTED_LENGTH = 46, BEGUN_LENGTH = 30;
const LONGEST_COMMENT = 65535;
const MOST_OF_A_DIRECTORY = 1 << 24;
const [ENCRYPTED, STORED] = [1, 0];

/** The zip is refused, for this reason. */
class NoZip extends Error {}

function need(isSo, reason) {
  if (!isSo) throw new NoZip(reason);
}

async function partOf(file, from, to) {
  const text = new DataView(await file.slice(from, to).arrayBuffer());
  need(text.byteLength === to - from, "it ends too early");
  return text;
}

/** Where the directory of a zip is, and how many entries it has. */
async function directoryOf(file) {
  const from = Math.max(0, file.size - END_LENGTH - LONGEST_COMMENT);
  const tail = await partOf(file, from, file.size);
  let at = tail.byteLength - END_LENGTH;
  while (at >= 0 && !(tail.getUint32(at, true) === ENDED && at + END_LENGTH + tail.getUint16(at + 20, true) === tail.byteLength)) at--;
  need(at >= 0, "it does not end as a zip does");
  const count = tail.getUint16(at + 10, true), length = tail.getUint32(at + 12, true), begin = tail.getUint32(at + 16, true);
  need(count !== 0xffff && length !== 0xffffffff && begin !== 0xffffffff, "it has the form for very long ones, ZIP64");
  need(tail.getUint16(at + 8, true) === count && tail.getUint32(at + 4, true) === 0, "it is one of several parts");
  need(begin + length === from + at && length <= MOST_OF_A_DIRECTORY, "its list of files is not in its place");
  return { count, text: await partOf(file, begin, begin + length) };
}

/** Each file that the directory lists: its name, and how and where it is stored. */
function entriesIn({ count, text }) {
  const entries = [];
  for (let at = 0, k = 0; k < count; k++) {
    need(at + LISTED_LENGTH <= text.byteLength && text.getUint32(at, true) === LISTED, "its list of files is broken");
    const [name, extra, comment] = [28, 30, 32].map((place) => text.getUint16(at + place, true));
    const end = at + LISTED_LENGTH + name;
    need(end + extra + comment <= text.byteLength, "its list of files is broken");
    entries.push({
      name: String.fromCharCode(...new Uint8Array(text.buffer, at + LISTED_LENGTH, name)),
      flags: text.getUint16(at + 8, true),
      method: text.getUint16(at + 10, true),
      stored: text.getUint32(at + 20, true),
      length: text.getUint32(at + 24, true),
      begin: text.getUint32(at + 42, true),
    });
    at = end + extra + comment;
  }
  return entries;
}

/** The pieces of a lineage's steps in a zip: N.hsc, N.hsr and N.hsh, all in one folder of it or in none. Other files are passed over. */
class ZippedPieces {
  static async open(file) {
    const entries = new Map();
    const folders = new Set();
    for (const entry of entriesIn(await directoryOf(file))) {
      const [, folder, piece] = entry.name.match(/^(.*\/)?([1-9]\d{0,4}\.hs[crh])$/s) ?? [];
      if (piece === undefined) continue;
      need(!(entry.flags & ENCRYPTED), "it is encrypted");
      need(entry.method === STORED && entry.stored === entry.length, "its files are compressed");
      need(entry.length !== 0xffffffff && entry.begin !== 0xffffffff, "it has the form for very long ones, ZIP64");
      need(!(entries.has(piece) && folders.has(folder)), `it has ${piece} twice`);
      folders.add(folder);
      need(folders.size === 1, "it has steps in more than one folder");
      entries.set(piece, entry);
    }
    need(entries.size > 0, "it has no file like 1.hsc, 1.hsr or 1.hsh");
    return new ZippedPieces(file, entries);
  }

  constructor(file, entries) {
    this.file = file;
    this.entries = entries;
    const has = (number) => entries.has(`${number}.hsc`);
    this.count = 0;
    while (has(this.count + 1)) this.count++;
    // The least later step that is there all the same.
    this.later = Array.from({ length: LOOKED_AT }, (_, k) => this.count + 2 + k).find(has) ?? null;
  }

  /** As much of a piece as hs_follow reads; null if it is not there. */
  async read(number, name) {
    const entry = this.entries.get(`${number}.${name}`);
    if (entry === undefined) return null;
    const head = await partOf(this.file, entry.begin, entry.begin + BEGUN_LENGTH);
    need(head.getUint32(0, true) === BEGUN, `its ${number}.${name} is not in its place`);
    const from = entry.begin + BEGUN_LENGTH + head.getUint16(26, true) + head.getUint16(28, true);
    const text = await partOf(this.file, from, from + Math.min(entry.length, PIECES[name]));
    return new Uint8Array(text.buffer);
  }
}

if (typeof module !== "undefined") Object.assign(module.exports, { ZippedPieces, NoZip });

// node mutants.js FOLDER COUNT SEED: that many committees and verdicts with some bytes changed, of which the module and the native
// hs_check are to say the same.
"use strict";
const { spawnSync } = require("child_process");
const { mkdtempSync, readFileSync, rmSync, writeFileSync } = require("fs");
const { tmpdir } = require("os");
const [folder, count, seed] = process.argv.slice(2);
const { Checker, lineOf, MOST } = require(`${folder}/checker.js`);

// xorshift32, so that a seed names its mutants.
let state = (Number(seed) * 2654435761) >>> 0 || 1;
function below(n) {
  state ^= state << 13; state >>>= 0;
  state ^= state >>> 17;
  state ^= state << 5; state >>>= 0;
  return state % n;
}

const SOURCES = ["examples/", "examples/weighted/", "examples/multikey/"].flatMap((place) => ["double_vote", "lock_violation"]
  .filter((name) => !(place.endsWith("multikey/") && name === "lock_violation"))
  .map((name) => [readFileSync(`${place}committee.hsc`), readFileSync(`${place}${name}.hsx`)]));

/** A copy with up to three changes; most of them in the first bytes and near the places of fields, where tests are. */
function changed(text) {
  let bytes = Buffer.from(text);
  for (let changes = below(4); changes > 0; changes--) {
    const kind = below(8);
    if (kind === 0) bytes = bytes.subarray(0, below(bytes.length + 1));
    else if (kind === 1) bytes = Buffer.concat([bytes, Buffer.alloc(1 + below(64))]);
    else if (bytes.length > 0) {
      const at = kind < 5 ? below(Math.min(bytes.length, 90)) : below(bytes.length);
      bytes[at] = kind % 2 ? below(256) : bytes[at] ^ (1 << below(8));
    }
  }
  return bytes;
}

async function main() {
  const checker = await Checker.open();
  const room = mkdtempSync(`${tmpdir()}/mutants-`);
  let failed = 0, accepted = 0;
  for (let i = 0; i < Number(count); i++) {
    const [whole, proof] = SOURCES[below(SOURCES.length)];
    const committee = below(3) ? whole : changed(whole), verdict = changed(proof);
    writeFileSync(`${room}/c`, committee);
    writeFileSync(`${room}/v`, verdict);
    const ran = spawnSync("crates/hs_check/out/hs_check", [`${room}/c`, `${room}/v`], { encoding: "utf8" });
    // Behind the name of a refused committee the program prints which key or replica it is, and the library does not say.
    const native = `${(ran.stdout + ran.stderr).trimEnd()}, status ${ran.status}`.replace(/^(fault committee \d+ \w+)[ \d]*,/, "$1,");
    const ours = lineOf(checker.check(committee.subarray(0, MOST), verdict.subarray(0, MOST)));
    accepted += native.startsWith("accepted");
    if (native !== ours && ++failed <= 10) console.log(`FAILED: mutant ${i} of seed ${seed}\n  native: ${native}\n  module: ${ours}`);
  }
  rmSync(room, { recursive: true });
  console.log(`mutants of seed ${seed}: ${count - failed} passed, ${failed} failed; ${accepted} were accepted`);
  process.exitCode = failed ? 1 : 0;
}
main();

// node run_lineages.js FOLDER LINEAGES: each lineage that web/lineages made, judged by the page's code in node, beside what
// examples/python/second_lineage.py prints of it and, if it is built, hs_follow; verdicts of their committees; and zips that are none.
"use strict";
const { spawnSync } = require("child_process");
const { existsSync, openAsBlob, readFileSync } = require("fs");
const [folder, room] = process.argv.slice(2);
const { Checker, Lineage, MOST, NoZip, ZippedPieces, lineOf } = require(`${folder}/checker.js`);

const FOLLOW = "crates/hs_follow/out/hs_follow";
/** Of the second opinion, which doesn't look behind a step that is missing. */
const GAP = /^step \d+ is there without step (\d+)$/;

const read = (name) => JSON.parse(readFileSync(`${room}/${name}.json`, "utf8"));

let passed = 0, failed = 0;
function compare(wanted, got, what) {
  if (wanted === got) passed++;
  else if (++failed <= 10) console.log(`FAILED: ${what}\n  wanted: ${wanted}\n  got:    ${got}`);
}

/** The whole lineage, judged. */
async function judged(checker, { committee, zip }) {
  const lineage = new Lineage(checker, readFileSync(committee).subarray(0, MOST), await ZippedPieces.open(await openAsBlob(zip)));
  while (!lineage.isOver) await lineage.judgeNext();
  return lineage;
}

/** What is said of a verdict, as second_lineage.py prints it. */
function toldOf(checker, lineage, verdict) {
  const place = lineage.placeOf(checker.verdict(verdict).chain);
  if (place === null) return "no committee of this lineage";
  const found = checker.check(lineage.committee(place).text, verdict);
  const line = lineOf(found).replace(/, status \d$/, "");
  if (found.answer !== 0) return line;
  return [`${line} committee ${place}`, ...lineage.waysOf(found.replica, place).map((it) => it.replace(/ slot \d+/, ""))].join("\n");
}

async function seeLineages(checker) {
  const hasFollow = existsSync(FOLLOW);
  let refused = 0;
  for (const each of read("lineages")) {
    const lineage = await judged(checker, each).catch((error) => ({ lines: [], lastLine: `${error}`, refused: null }));
    const told = [...lineage.lines, lineage.lastLine].join("\n");
    compare(each.wanted, told.replace(GAP, (_, next) => `followed ${next - 1}`), each.what);
    refused += lineage.refused !== null;
    if (hasFollow) compare(spawnSync(FOLLOW, [each.committee, "--lineage", each.folder], { encoding: "utf8" }).stdout.trimEnd(), told, `${each.what}, by hs_follow`);
    each.verdicts.forEach((path, k) => compare(each.told[k], toldOf(checker, lineage, readFileSync(path)), `verdict ${k} of ${each.what}`));
  }
  console.log(hasFollow ? `hs_follow was asked too; ${refused} lineages were refused` : `hs_follow is not built, and was not asked; ${refused} lineages were refused`);
}

async function seeZips(checker) {
  for (const { zip, committee, why } of read("zips")) {
    const said = await judged(checker, { zip, committee }).then(() => null, (error) => (error instanceof NoZip ? error.message : `${error}`));
    compare(why, said, zip);
  }
}

async function main() {
  const checker = await Checker.open();
  const began = Date.now();
  await seeLineages(checker);
  await seeZips(checker);
  console.log(`lineages: ${passed} passed, ${failed} failed, in ${Math.round((Date.now() - began) / 1000)} s`);
  process.exitCode = failed ? 1 : 0;
}
main();

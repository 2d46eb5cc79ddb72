// node run_node.js FOLDER CASES.tsv: each case in node; what the module asks of its host; and what stands in the names.
"use strict";
const { readFileSync } = require("fs");
const [folder, cases] = process.argv.slice(2);
const { Checker, MOST, COMMITTEE_REFUSALS, REFUSALS, lineOf, moduleBytes } = require(`${folder}/checker.js`);

async function main() {
  const checker = await Checker.open();
  let passed = 0, failed = 0;
  const compare = (wanted, got, what) => {
    if (wanted === got) passed++;
    else { failed++; console.log(`FAILED: ${what}\n  wanted: ${wanted}\n  got:    ${got}`); }
  };
  const module = new WebAssembly.Module(moduleBytes());
  compare("[]", JSON.stringify(WebAssembly.Module.imports(module)), "what the module asks of its host");
  for (const line of readFileSync(cases, "utf8").trimEnd().split("\n")) {
    const [committee, verdict, wanted] = line.split("\t");
    const first = (path) => readFileSync(path).subarray(0, MOST);
    compare(wanted, lineOf(checker.check(first(committee), first(verdict))), `${committee} ${verdict}`);
  }
  // The C header names the same refusals.
  const header = readFileSync("include/hs_check.h", "utf8");
  const inWords = (name) => name.replace(/([a-z])([A-Z])/g, "$1_$2").toUpperCase();
  for (const [front, sign, table] of [["HS_REFUSED_", "", REFUSALS], ["HS_COMMITTEE_", "-", COMMITTEE_REFUSALS]]) {
    for (const [number, { name }] of Object.entries(table)) {
      compare(true, new RegExp(`\\b${front}${inWords(name)} = ${sign}${number}[, ]`).test(header), `${front}${inWords(name)} of include/hs_check.h`);
    }
  }
  const shown = checker.committee(readFileSync("examples/multikey/committee.hsc"));
  compare(checker.verdict(readFileSync("examples/multikey/double_vote.hsx")).chain, shown.chain, "the chain of a committee and of its verdict");
  compare(shown.n, shown.replicas.length, "how many replicas are shown");
  console.log(`node ${process.version}: ${passed} passed, ${failed} failed`);
  process.exitCode = failed ? 1 : 0;
}
main();

#!/usr/bin/env node
// Reads examples/vectors.json, makes its ids, chains and statements anew, and judges its committees and verdicts where the checker
// is named: vectors.js VECTORS [CHECKER]
//
// CHECKER is the checker.js that web/build makes. It prints each vector that is another here, and then how many there were.
"use strict";
const { createHash } = require("crypto");
const { readFileSync } = require("fs");
const { resolve } = require("path");

const HEADER = 84;
const digest = (...parts) => parts.reduce((hash, part) => hash.update(part), createHash("sha256")).digest("hex");
const bytes = (digits) => Buffer.from(digits, "hex");

/** docs/FORMATS.md, "Header": what refuses these bytes, or what stands in them. */
function header(text) {
  if (text.length !== HEADER) return { refused: 1 };
  if (text.toString("latin1", 0, 4) !== "HSB1") return { refused: 2 };
  const [view, parentView] = [text.readBigUInt64BE(4), text.readBigUInt64BE(12)];
  if (parentView >= view && (view !== 0n || parentView !== 0n)) return { refused: 3 };
  const shown = { view: Number(view), parent_view: Number(parentView), parent: text.toString("hex", 20, 52) };
  return { ...shown, payload: text.toString("hex", 52), id: digest(text) };
}

/** "Committee": the id of genesis, whose payload is the digest of the committee's bytes. */
function chainOf(committee) {
  return digest("HSB1", Buffer.alloc(8 + 8 + 32), bytes(digest(committee)));
}

/** "Statement" */
function statement({ chain, view, id }) {
  const number = Buffer.alloc(8);
  number.writeBigUInt64BE(BigInt(view));
  return Buffer.concat([Buffer.from("HSV1"), bytes(chain), number, bytes(id)]).toString("hex");
}

async function main([vectorsAt, checkerAt]) {
  const vectors = JSON.parse(readFileSync(vectorsAt, "utf8"));
  let compared = 0;
  let differ = 0;
  function compare(what, found, wanted) {
    compared++;
    if (Object.entries(found).every(([name, value]) => wanted[name] === value)) return;
    differ++;
    console.log(`FAILED: ${what}:`, found);
  }
  for (const it of vectors.committees) compare("committee", { chain: chainOf(bytes(it.committee)) }, it);
  for (const it of [...vectors.headers, ...vectors.refused_headers]) compare("header", header(bytes(it.header)), it);
  for (const it of vectors.statements) compare("statement", { statement: statement(it) }, it);
  if (checkerAt !== undefined) {
    const { Checker } = require(resolve(checkerAt));
    const checker = await Checker.open();
    const committees = new Map(vectors.committees.map((it) => [it.name, bytes(it.committee)]));
    const check = (it) => checker.check(committees.get(it.committee), bytes(it.verdict));
    for (const it of vectors.verdicts) compare("verdict", check(it), { ...it, answer: 0, view: BigInt(it.view) });
    for (const it of vectors.refused_verdicts) compare("refused verdict", check(it), { answer: it.refused });
    for (const it of vectors.refused_committees) compare("refused committee", checker.committee(bytes(it.committee)), { answer: -it.refused });
  }
  console.log(`${compared} vectors, ${differ} differ`);
  process.exitCode = differ === 0 && compared > 0 ? 0 : 1;
}

main(process.argv.slice(2));

// node edges.js FOLDER: what include/hs_check.h promises beside the answers, of the module; and how much of its stack is used.
"use strict";
const { createHash } = require("crypto");
const { readFileSync } = require("fs");
const { Checker } = require(`${process.argv[2]}/checker.js`);

/** The stack that web/build gives the module, from 0 up to the constants. */
const STACK = 65536;

/** The first vote of a verdict, alone. */
const voteOf = (verdict) => Buffer.concat([verdict.subarray(36, 38), verdict.subarray(39, 39 + 1493)]);

function changed(text, at, byte) {
  const bytes = Buffer.from(text);
  bytes[at] = byte;
  return bytes;
}

/** What is answered of votes, endorsements and digests; web/lineages has good endorsements. */
function seeStepCalls(checker, committee, vote, say) {
  const answers = [vote, changed(vote, 1, 9), changed(vote, 2, 1), changed(vote, 100, vote[100] ^ 1), vote.subarray(1), Buffer.concat([vote, vote])];
  say(answers.map((it) => checker.checkVote(committee, it)).join() === "0,1,3,2,4,4", "what hs_check_vote answers");
  say(checker.checkVote(committee.subarray(1), vote) === -1 && checker.checkEndorsement(changed(committee, 0, 0), vote) === -2, "a committee that is none");
  say([vote, changed(Buffer.alloc(1548), 0, 72), Buffer.alloc(20)].map((it) => checker.checkEndorsement(committee, it)).join() === "2,2,1", "what hs_check_endorsement answers");
  const texts = [0, 1, 55, 56, 63, 64, 84, 119, 120, 16384].map((length) => Buffer.alloc(length, length));
  say(texts.every((it) => checker.digest(it) === createHash("sha256").update(it).digest("hex")), "digests");
}

async function main() {
  const checker = await Checker.open();
  const { calls, memory } = checker;
  const committee = readFileSync("examples/committee.hsc"), verdict = readFileSync("examples/lock_violation.hsx");
  let failed = 0, passed = 0;
  const say = (ok, what) => {
    if (ok) passed++;
    else { failed++; console.log(`FAILED: ${what}`); }
  };
  const finding = () => new Uint8Array(memory.buffer, checker.shownAt, 16);
  const isUntouched = () => finding().every((byte) => byte === 0xa5);
  const [c, cl] = checker.lay(checker.committeeAt, committee), [v, vl] = checker.lay(checker.verdictAt, verdict), out = BigInt(checker.shownAt);
  finding().fill(0xa5);
  say(calls.hs_check(0n, 0n, v, vl, out) === -1 && calls.hs_check(c, cl, 0n, 0n, out) === 1 && calls.hs_check(0n, 0n, 0n, 0n, out) === -1 && isUntouched(),
    "a text of length 0 may have the pointer 0");
  let refused = true;
  for (let n = 0n; n < cl; n++) refused &&= calls.hs_check(c, n, v, vl, out) < 0;
  for (let n = 0n; n < vl; n++) refused &&= calls.hs_check(c, cl, v, n, out) > 0;
  say(refused && isUntouched(), "each text cut short is refused, and the finding is left as it was");
  // No byte behind a text is read: at the end of the memory.
  const end = memory.buffer.byteLength;
  const atEnd = (text) => {
    new Uint8Array(memory.buffer, end - text.length, text.length).set(text);
    return BigInt(end - text.length);
  };
  say(calls.hs_check(atEnd(committee), cl, v, vl, out) === 0, "a committee that ends where the memory ends");
  say(calls.hs_check(c, cl, atEnd(verdict), vl, out) === 0, "a verdict that ends where the memory ends");
  say(calls.hs_check(c, cl, c, cl, out) === 2, "both texts may be one");
  const vote = voteOf(verdict);
  seeStepCalls(checker, committee, vote, say);
  let most = 0;
  for (const call of [() => checker.check(committee, verdict), () => checker.committee(committee), () => checker.verdict(verdict),
    () => checker.checkVote(committee, vote), () => checker.checkEndorsement(committee, vote), () => checker.digest(committee)]) {
    new Uint8Array(memory.buffer, 0, STACK - 64).fill(0x5a);
    call();
    most = Math.max(most, STACK - new Uint8Array(memory.buffer, 0, STACK).findIndex((byte) => byte !== 0x5a));
  }
  say(most <= STACK / 2, `the calls use ${most} bytes of stack, more than half of what there is`);
  // A pointer behind the memory stops the module.
  let said = "";
  try { calls.hs_check(BigInt(end), 8n, v, vl, out); } catch (error) { said = error.message; }
  say(said !== "", "a pointer behind the memory is answered");
  console.log(`edges: ${passed} passed, ${failed} failed; stack ${most} bytes`);
  process.exitCode = failed ? 1 : 0;
}
main();

// Lineages in the page itself, in Chromium: those that web/lineages made.
"use strict";
const { copyFileSync, mkdtempSync, readFileSync, rmSync } = require("fs");
const { tmpdir } = require("os");

const CARDS = `Array.from(document.querySelectorAll("#answers article"), (it) => it.dataset.line ?? it.querySelector(".answer").textContent).join(" | ")`;
const SUMMARY = `by("summary").textContent`;
const LINES = (name) => `Array.from(document.querySelectorAll('#answers [aria-label="${name}"] div'), (it) => it.textContent).join("\\n")`;
const IS_DONE = `verdicts.length > 0 && !verdicts.some(isWaiting)`;
const ACCEPTED = "accepted replica 1 rule 1 view 9, status 0";
const EMPTY = `by("told").value = ""; enter(); take("committee", []); take("lineage", []); take("verdicts", [])`;

class Lineages {
  constructor(browser, compare, room) {
    Object.assign(this, { browser, compare });
    this.cases = JSON.parse(readFileSync(`${room}/lineages.json`, "utf8"));
    this.zips = JSON.parse(readFileSync(`${room}/zips.json`, "utf8"));
    this.whole = this.named("whole");
  }

  named(what) {
    return this.cases.find((it) => it.what === what);
  }

  /** Picks the first committee, this zip and verdicts of the committees after so many steps, and waits for the answers. */
  async pick(zip, ...places) {
    await this.browser.tell(EMPTY);
    await this.browser.pick("#committee-file", [this.whole.committee]);
    if (zip !== null) {
      await this.browser.pick("#lineage-file", [zip]);
      await this.browser.until(`lineage !== null`);
    }
    await this.browser.pick("#verdict-files", places.map((it) => this.whole.verdicts[it]));
    await this.browser.until(IS_DONE);
  }

  async says(wanted, expression, what) {
    this.compare(wanted, await this.browser.tell(expression), what);
  }

  async seeTraced() {
    await this.pick(null, 6);
    await this.says("refused 5 Chain, status 1 true", `${CARDS} + " " + document.querySelector("#answers article").textContent.includes("pick the lineage")`, "a later verdict without a lineage");
    await this.pick(this.whole.zip, 6);
    await this.says(ACCEPTED, CARDS, "a verdict after six steps");
    await this.says(this.whole.wanted.split("\n").slice(0, 6).join("\n"), LINES("Steps to the verdict\u2019s committee"), "the lines of six steps");
    const ways = this.whole.told[6].split("\n").slice(1).map((it) => it.replace(/^step \d+/, "$& slot 1")).join("\n");
    await this.says(ways, LINES("The replica\u2019s slot in each step"), "the slot in six steps");
    await this.says("1 accepted (replica 1), 0 refused, under c0 and its lineage, which you have not compared: enter the chain id that you were told.", SUMMARY, "the summary of a lineage");
    const newest = this.whole.wanted.split("\n")[5].split(" ")[3];
    await this.says("true true true", `{ const said = document.querySelector("#answers article").textContent.replace(/ /g, ""); ["${newest}", "asecondlineage"].map((it) => said.includes(it)).join(" ") + " " + /committee after step 6 /.test(document.querySelector("#answers .answer").textContent); }`, "what a lineage does not show");
    await this.browser.tell(`by("told").value = committee.shown.chain; by("told").dispatchEvent(new Event("input"))`);
    await this.says("card verdict", `document.querySelector("#answers article").className`, "an answer by steps, which are compared elsewhere");
    const { data } = await this.browser.send("Page.printToPDF", { preferCSSPageSize: true });
    const pages = Buffer.from(data, "base64").toString("latin1").match(/\/Type\s*\/Page\b(?!s)/g).length;
    this.compare(true, pages <= 2, `pages of paper of a verdict after six steps: ${pages}`);
  }

  async seeHowFar() {
    await this.pick(this.whole.zip, 0);
    await this.says(`${ACCEPTED} 0 true`, `${CARDS} + " " + lineage.judged.steps.length + " " + by("lineage-shown").textContent.includes("No step was judged")`, "a verdict of the first committee");
    await this.pick(this.whole.zip, 2, 1);
    await this.says(`${ACCEPTED} | ${ACCEPTED} 2 true`, `${CARDS} + " " + lineage.judged.steps.length + " " + by("lineage-shown").textContent.includes("Steps 1 to 2 are good. No later one was judged")`, "how far a lineage is judged");
    await this.pick(this.whole.zip, 8, 7);
    await this.says("Not judged | refused 9 SignatureE, status 1 true", `${CARDS} + " " + document.querySelector("#answers article").textContent.includes("nor those of the 6 steps")`, "a verdict of no committee, and a bad one of a later one");
    await this.says("0 accepted, 1 refused, 1 not judged", `${SUMMARY}.split(", under")[0]`, "the summary of one that is not judged");
  }

  async seeRefused() {
    await this.pick(this.named("a step left out").zip, 2, 6);
    await this.says(`${ACCEPTED} | Not judged`, CARDS, "verdicts before and after a step that is refused");
    await this.says("true true", `[by("lineage-shown").textContent.includes("step 3 refused 5 Proof"), document.querySelectorAll("#answers article")[1].textContent.includes("none of the committees before step 3")].join(" ")`, "what is said of a step that is refused");
    for (const { zip, why } of this.zips.filter((it) => it.why !== null && !it.why.includes("not in its place"))) {
      await this.pick(zip, 0, 1);
      await this.says(`${ACCEPTED} | Not judged true true`, `[${CARDS}, by("lineage-shown").textContent.includes(${JSON.stringify(why)}), by("lineage-shown").textContent.includes("zip -0 -r lineage.zip")].join(" ")`, `a zip: ${why}`);
    }
    await this.pick(this.zips.find((it) => it.zip.endsWith("/piece.zip")).zip, 0, 1);
    await this.says(`${ACCEPTED} | Not judged true`, `${CARDS} + " " + by("lineage-shown").textContent.includes("its 1.hsh is not in its place")`, "a zip with a broken piece");
  }

  /** The keyboard alone takes a lineage away again, a narrow page has room for it, and its name stays text. */
  async seeHandling(press) {
    const room = mkdtempSync(`${tmpdir()}/named-`);
    const named = `${room}/<img src=x onerror="document.title=1">${"lineage_2026_".repeat(9)}.zip`;
    copyFileSync(this.whole.zip, named);
    await this.browser.send("Emulation.setDeviceMetricsOverride", { width: 320, height: 800, deviceScaleFactor: 1, mobile: true });
    await this.pick(named, 6);
    await this.says("320 80 0", `document.documentElement.scrollWidth + " " + document.querySelector("#lineage-shown bdi").textContent.length + " " + document.querySelectorAll("img").length`, "a lineage on a narrow page");
    await this.browser.send("Emulation.setDeviceMetricsOverride", { width: 1000, height: 900, deviceScaleFactor: 1, mobile: false });
    await this.browser.tell(`by("lineage-file").focus()`);
    for (let i = 0; i < 2; i++) await press(this.browser, "Tab");
    await this.says("lineage-clear", `document.activeElement.id`, "where the tabulator key goes from a lineage");
    await press(this.browser, " ");
    await this.browser.until(`lineage === null && ${IS_DONE}`);
    await this.says("refused 5 Chain, status 1 lineage-file", `${CARDS} + " " + document.activeElement.id`, "a lineage that is left out again");
    await this.browser.drop("#lineage-drop", [this.whole.zip]);
    await this.browser.until(`lineage !== null && ${IS_DONE}`);
    await this.says(ACCEPTED, CARDS, "a lineage that is dropped");
    rmSync(room, { recursive: true });
  }

  /** While steps are judged little is said aloud, no answer stands there, and what is picked meanwhile counts. */
  async seeMeanwhile() {
    await this.pick(this.whole.zip, 6);
    await this.browser.tell(`window.said = 0; new MutationObserver((all) => { for (const it of all) for (const node of it.addedNodes) window.said += node.textContent.length; }).observe(by("summary"), { childList: true, subtree: true })`);
    await this.browser.tell(`{ const read = ZippedPieces.prototype.read; ZippedPieces.prototype.read = () => new Promise(() => {}); window.let_go = () => { ZippedPieces.prototype.read = read; }; take("lineage", by("lineage-file").files); }`);
    await this.browser.until(`lineage !== null`);
    await this.says("0 Judging the lineage: 0 of 6 steps so far.", `document.querySelectorAll("#answers article").length + " " + ${SUMMARY}`, "answers while a lineage is judged");
    await this.browser.tell(`window.let_go(); take("lineage", [])`);
    await this.says("refused 5 Chain, status 1", CARDS, "a lineage that is taken away while it is judged");
    await this.says(true, `window.said < 600`, "characters said aloud of a lineage");
  }
}

async function seeLineages(browser, compare, press, room) {
  const lineages = new Lineages(browser, compare, room);
  await lineages.seeTraced();
  await lineages.seeHowFar();
  await lineages.seeRefused();
  await lineages.seeHandling(press);
  await lineages.seeMeanwhile();
  await browser.tell(EMPTY);
}

module.exports = { seeLineages };

// node run_chromium.js PAGE.html CASES.tsv LINEAGES [PICTURES]: each case in the page itself, in Chromium, by its own file inputs; and each
// state that the page has, also with lineages that web/lineages made. Pictures of them go into the folder PICTURES.
"use strict";
const { copyFileSync, mkdirSync, mkdtempSync, readFileSync, rmSync, truncateSync, writeFileSync } = require("fs");
const { tmpdir } = require("os");
const { dirname } = require("path");
const { pathToFileURL } = require("url");
const { Browser } = require("./browser.js");
const { seeLineages } = require("./chromium_lineages.js");

const KEYS = { Tab: 9, " ": 32, a: 65, c: 67, v: 86 };

/** A key, with what a browser does at it where it is pressed with Control. */
async function press(browser, key, command) {
  const how = command ? { modifiers: 2, commands: [command] } : {};
  for (const type of ["keyDown", "keyUp"]) await browser.send("Input.dispatchKeyEvent", { type, key, code: key, windowsVirtualKeyCode: KEYS[key], text: type === "keyDown" && key === " " ? key : undefined, ...how });
}

/** The page's own words for nothing picked and nothing entered. */
const EMPTY = `by("told").value = ""; enter(); committee = null; verdicts = []; showCommittee(); show()`;

/** Digits come one by one: what is judged and shown stays, but where the answer changes; and little is said aloud. */
async function enterDigits(browser, compare, top, chain) {
  await browser.tell(EMPTY);
  await browser.pick("#committee-file", [`${top}/examples/committee.hsc`]);
  const room = mkdtempSync(`${tmpdir()}/many-`);
  const many = Array.from({ length: 147 }, (_, i) => `${room}/${i}.hsx`);
  for (const path of many) copyFileSync(`${top}/examples/double_vote.hsx`, path);
  await browser.pick("#verdict-files", many);
  await browser.until(`committee !== null && verdicts.length === 147`);
  await browser.tell(`document.querySelector("details").open = true; window.told = 0; window.judged = 0;
    { const check = checker.check.bind(checker); checker.check = (...texts) => { window.judged++; return check(...texts); }; }
    new MutationObserver((all) => { for (const it of all) for (const node of it.addedNodes) window.told += node.textContent.length; }).observe(by("summary"), { childList: true, subtree: true });
    by("told").focus()`);
  const began = Date.now();
  for (const digit of chain.slice(0, 10)) await browser.send("Input.insertText", { text: digit });
  const took = Date.now() - began;
  for (const digit of chain.slice(10)) await browser.send("Input.insertText", { text: digit });
  await browser.until(`compared.is === "same"`);
  compare("0 true 147", await browser.tell(`[window.judged, document.querySelector("details").open, document.querySelectorAll(".is-good").length].join(" ")`), "what digits judge and close");
  compare(true, (await browser.tell(`window.told`)) < 200, `characters said aloud at 64 digits: ${await browser.tell("window.told")}`);
  compare(true, took < 2000, `milliseconds for ten digits beside 147 verdicts: ${took}`);
  console.log(`ten digits beside 147 verdicts: ${took} ms; said aloud at 64 digits: ${await browser.tell("window.told")} characters`);
  rmSync(room, { recursive: true });
}

/** The id that the page shows can't fill the place for the one that was told. */
async function pasteBack(browser, compare, top, chain) {
  const copied = async () => {
    await browser.tell(`{ const range = document.createRange(); range.selectNodeContents(document.querySelector("#committee-shown .chain")); getSelection().removeAllRanges(); getSelection().addRange(range); }`);
    await press(browser, "c", "copy");
    await browser.tell(`by("told").value = ""; enter(); by("told").focus()`);
    await press(browser, "v", "paste");
    return browser.tell(`[digitsOf(by("told").value).length, compared.is, document.querySelectorAll(".is-good").length].join(" ")`);
  };
  await browser.tell(EMPTY);
  await browser.pick("#committee-file", [`${top}/examples/committee.hsc`]);
  await browser.pick("#verdict-files", [`${top}/examples/double_vote.hsx`]);
  await browser.until(`committee !== null && verdicts.length === 1`);
  compare("none", await browser.tell(`getComputedStyle(document.querySelector("#committee-shown .chain")).userSelect`), "whether the shown id can be selected");
  await browser.tell(`by("told").focus()`);
  await browser.send("Input.insertText", { text: chain });
  compare("same text", await browser.tell(`compared.is + " " + getComputedStyle(document.querySelector("#committee-shown .chain")).userSelect`), "an id that was typed");
  compare("64 copied 0", await copied(), "an id that was copied from the page");
  compare("You copied this from this page", (await browser.tell(`by("told-said").textContent`)).slice(0, 30), "what is said of it");
  await browser.tell(`by("told").value = ""; enter(); by("told").focus()`);
  await browser.send("Input.insertText", { text: `0x${chain.slice(0, 8)}` });
  compare("other true", await browser.tell(`compared.is + " " + by("told-said").textContent.includes("\u201cx\u201d")`), "a letter that is no digit");
}

/** Names of files that are long or turn what stands around them. */
async function longNames(browser, compare, top) {
  const room = mkdtempSync(`${tmpdir()}/named-`);
  const committee = `${room}/committee.hsc. \u2714 It is the same chain id. \u202e`;
  const verdict = `${room}/${"committee_2026_production_".repeat(9)}.hsx`;
  copyFileSync(`${top}/examples/committee.hsc`, committee);
  copyFileSync(`${top}/examples/double_vote.hsx`, verdict);
  await browser.tell(EMPTY);
  await browser.send("Emulation.setDeviceMetricsOverride", { width: 320, height: 800, deviceScaleFactor: 1, mobile: true });
  for (const [what, files] of [["#committee-file", [verdict]], ["#committee-file", [committee]], ["#verdict-files", [verdict]]]) await browser.pick(what, files);
  await browser.until(`committee?.shown.answer === 0 && verdicts.length === 1`);
  compare("320 80", await browser.tell(`document.documentElement.scrollWidth + " " + document.querySelector("#answers bdi").textContent.length`), "a long name on a narrow page");
  compare(true, await browser.tell(`Array.from(document.querySelectorAll("#summary, #committee-shown > p, #answers .file"), (it) => !Array.from(it.childNodes).some((n) => n.nodeType === 3 && n.textContent.includes("\u202e"))).every(Boolean)`), "a name that turns words around");
  await browser.send("Emulation.setDeviceMetricsOverride", { width: 1000, height: 900, deviceScaleFactor: 1, mobile: false });
  rmSync(room, { recursive: true });
}

/** Of a long file the first bytes are read, as by hs_check, and of several files those that can be read are judged. */
async function oddFiles(browser, compare, top) {
  const room = mkdtempSync(`${tmpdir()}/odd-`);
  const long = `${room}/long.hsx`;
  copyFileSync(`${top}/examples/double_vote.hsx`, long);
  truncateSync(long, 3e9);
  await browser.tell(EMPTY);
  await browser.pick("#committee-file", [`${top}/examples/committee.hsc`]);
  await browser.until(`committee !== null`);
  const began = Date.now();
  await browser.pick("#verdict-files", [long]);
  await browser.until(`verdicts.length === 1 && document.querySelector("#answers article")`);
  console.log(`a verdict of 3 GB: ${Date.now() - began} ms`);
  compare("refused 4 Length, status 1", await browser.tell(`document.querySelector("#answers article").dataset.line`), "a verdict of 3 GB");
  compare("false true", await browser.tell(`{ const said = document.querySelector("#answers article").textContent; said.includes("SHA-256") + " " + said.includes("3,000,000,000 bytes"); }`), "a digest of a part of a file");
  const unreadable = `{ name: "gone.hsx", size: 1, slice: () => ({ arrayBuffer: () => Promise.reject(new Error("no")) }) }`;
  await browser.tell(`{ const good = new File([verdicts[0].bytes.slice(0, 100)], "short.hsx"); take("verdicts", [${unreadable}, good]); }`);
  await browser.until(`!by("fault").hidden`);
  compare("gone.hsx could not be read: no. The others were judged. 1", await browser.tell(`by("fault").textContent + " " + document.querySelectorAll("#answers article").length`), "one file of two that can't be read");
  rmSync(room, { recursive: true });
}

async function main() {
  const [page, cases, lineages, pictures] = process.argv.slice(2);
  const top = process.cwd();
  if (pictures) mkdirSync(pictures, { recursive: true });
  const browser = await Browser.open();
  let passed = 0, failed = 0;
  const compare = (wanted, got, what) => {
    if (wanted === got) passed++;
    else { failed++; console.log(`FAILED: ${what}\n  wanted: ${wanted}\n  got:    ${got}`); }
  };
  try {
    console.log((await browser.send("Browser.getVersion", {}, undefined)).product);
    await browser.show(pathToFileURL(page).href);
    await browser.until(`document.documentElement.dataset.ready === "yes"`);
    for (const line of readFileSync(cases, "utf8").trimEnd().split("\n")) {
      const [committee, verdict, wanted] = line.split("\t");
      await browser.tell(EMPTY);
      await browser.pick("#committee-file", [committee]);
      await browser.pick("#verdict-files", [verdict]);
      await browser.until(`committee !== null && verdicts.length === 1`);
      compare(wanted, await browser.tell(`document.querySelector("#answers article")?.dataset.line
        ?? "fault committee " + document.querySelector("#committee-shown .bad").textContent.match(/\\((\\d+ \\w+)\\)/)[1] + ", status 2"`), `${committee} ${verdict}`);
    }
    // Dropped, several at once, and the chain id that one was told: until it is entered whole no answer has a colour.
    await browser.tell(EMPTY);
    await browser.drop("#committee-drop", [`${top}/examples/committee.hsc`]);
    // What is shown of it moves the place for verdicts.
    await browser.until(`committee !== null`);
    await browser.drop("#verdicts-drop", [`${top}/examples/double_vote.hsx`, `${top}/examples/lock_violation.hsx`, `${top}/examples/weighted/double_vote.hsx`]);
    await browser.until(`verdicts.length === 3`);
    const chain = await browser.tell(`committee.shown.chain`);
    const tellChain = (told) => browser.tell(`by("told").value = ${JSON.stringify(told)}; by("told").dispatchEvent(new Event("input"))`);
    const colours = `Array.from(document.querySelectorAll("#answers article"), (it) => it.className).join(", ")`;
    const open = "2 accepted (replicas 1 and 2), 1 refused, under committee.hsc, which you have not compared: enter the chain id that you were told.";
    for (const [told, said, summary, shown] of [
      ["", "", open, "card verdict, card verdict, card verdict"],
      [chain.slice(0, 12), "The same so far: 12 of 64 digits.", open, "card verdict, card verdict, card verdict"],
      ["00" + chain.slice(2), "\u2718 It is another chain id. Nothing is judged: this is not your committee\u2019s file, or a digit is wrong.",
        "Nothing was judged: the committee has another chain id than you were told.", ""],
      [chain.toUpperCase().match(/.{4}/g).join(" "), "\u2714 It is the same chain id.", "2 accepted (replicas 1 and 2), 1 refused, under committee.hsc.",
        "card verdict is-good, card verdict is-good, card verdict is-bad"],
    ]) {
      await tellChain(told);
      compare(said, await browser.tell(`by("told-said").textContent`), `told ${told}`);
      compare(summary, await browser.tell(`by("summary").textContent`), `the summary, told ${told}`);
      compare(shown, await browser.tell(colours), `the colours, told ${told}`);
      if (pictures && told.length === 12) await browser.picture(`${pictures}/uncompared.png`);
    }
    compare("2 accepted (replicas 1 and 2), 1 refused \u2013 Check a verdict", await browser.tell(`document.title`), "the title");
    compare("Accepted under a committee", (await (await tellChain(chain.slice(0, 9)), browser.tell(`document.querySelector("#answers .answer").textContent`))).slice(0, 26), "an answer that is not compared");
    await tellChain(chain);
    // On paper: a sheet for each verdict, with the digests of both files.
    const { createHash } = require("crypto");
    const digest = (path) => createHash("sha256").update(readFileSync(path)).digest("hex");
    compare(true, (await browser.tell(`document.querySelector("#answers article").textContent`)).includes(digest(`${top}/examples/double_vote.hsx`)), "the SHA-256 of the verdict");
    compare(true, (await browser.tell(`document.querySelector("#answers article .paper-only").textContent`)).includes(digest(`${top}/examples/committee.hsc`)), "the SHA-256 of the committee");
    await browser.pick("#verdict-files", [`${top}/examples/lock_violation.hsx`]);
    await browser.until(`verdicts.length === 1`);
    const { data: paper } = await browser.send("Page.printToPDF", { preferCSSPageSize: true });
    const pdf = Buffer.from(paper, "base64");
    compare(1, (pdf.toString("latin1").match(/\/Type\s*\/Page\b(?!s)/g) ?? []).length, "how many pages of paper a verdict takes");
    if (pictures) {
      writeFileSync(`${pictures}/print.pdf`, pdf);
      await browser.pick("#verdict-files", [`${top}/examples/double_vote.hsx`, `${top}/examples/lock_violation.hsx`, `${top}/examples/weighted/double_vote.hsx`]);
      await browser.until(`verdicts.length === 3`);
      await browser.picture(`${pictures}/light.png`);
      await browser.picture(`${pictures}/dark.png`, true);
      await browser.send("Emulation.setDeviceMetricsOverride", { width: 390, height: 800, deviceScaleFactor: 1, mobile: true });
      await browser.picture(`${pictures}/narrow.png`);
      await browser.send("Emulation.setDeviceMetricsOverride", { width: 1000, height: 900, deviceScaleFactor: 1, mobile: false });
    }
    // By keyboard alone: each place to go to is reached by the tabulator key, in order.
    const order = [];
    await browser.tell(`document.activeElement?.blur()`);
    for (let i = 0; i < 8; i++) {
      await press(browser, "Tab");
      order.push(await browser.tell(`document.activeElement === document.body ? "" : document.activeElement.id || document.activeElement.tagName.toLowerCase()`));
    }
    compare("committee-file summary told verdict-files lineage-file", [...new Set(order.filter(Boolean))].join(" "), "where the tabulator key goes");
    // The committee's name stands by itself where it is told.
    compare("committee.hsc committee.hsc", await browser.tell(`Array.from(document.querySelectorAll("#committee-shown bdi, #summary bdi"), (it) => it.textContent).join(" ")`), "the committee's name");
    // A name that is markup stays text.
    const named = `${mkdtempSync(`${tmpdir()}/named-`)}/<img src=x onerror="document.title=1">.hsx`;
    copyFileSync(`${top}/examples/double_vote.hsx`, named);
    await browser.tell(`verdicts = []; show()`);
    await browser.pick("#verdict-files", [named]);
    await browser.until(`verdicts.length === 1`);
    compare(`0 File: <img src=x onerror="document.title=1">.hsx`, await browser.tell(`document.querySelectorAll("img").length + " " + document.querySelector("#answers .file").textContent`), "a name that is markup");
    rmSync(dirname(named), { recursive: true });
    await enterDigits(browser, compare, top, chain);
    await pasteBack(browser, compare, top, chain);
    await longNames(browser, compare, top);
    await oddFiles(browser, compare, top);
    await seeLineages(browser, compare, press, lineages);
    await browser.tell(EMPTY);
    await browser.pick("#committee-file", [`${top}/examples/committee.hsc`]);
    await browser.pick("#verdict-files", [`${top}/examples/double_vote.hsx`]);
    await browser.until(`committee !== null && verdicts.length === 1`);
    // What a reader that speaks is told: the controls by name, and the answer.
    const { nodes } = await browser.send("Accessibility.getFullAXTree");
    const told = nodes.filter((it) => ["button", "textbox", "DisclosureTriangle", "heading", "status", "alert"].includes(it.role?.value) && !it.ignored)
      .map((it) => `${it.role.value}: ${it.name?.value ?? ""}`);
    for (const wanted of ["button: Committee file", "button: Verdict files, one or more", "button: Lineage, a zip file", "textbox: The chain id that you were told, by telephone or on a page that you know: all 64 digits"]) {
      compare(true, told.some((it) => it.startsWith(wanted)), `${wanted}, of ${told.join(" | ")}`);
    }
    if (pictures) writeFileSync(`${pictures}/spoken.txt`, told.join("\n") + "\n");
    // The policy holds: neither a script that is put in nor a request gets through.
    compare("blocked", await browser.tell(`(() => { window.ran = false; const s = document.createElement("script"); s.textContent = "window.ran = true"; document.body.append(s); return window.ran ? "ran" : "blocked"; })()`), "a script of another's");
    compare("blocked", await browser.tell(`fetch("https://example.org/").then(() => "sent", () => "blocked")`), "a request");
    const asked = browser.heard.filter((it) => it.method === "Network.requestWillBeSent").map((it) => it.params.request.url)
      .filter((it) => !it.startsWith("file:") && !it.startsWith("https://example.org/"));
    compare("", asked.join(" "), "what the page asked for");
    // A call that no page makes, one that the module's memory has no room for, so that it stops.
    await browser.tell(`try { checker.calls.hs_check(1n << 40n, 8n, 0n, 0n, 0n); } catch {}`);
    await browser.pick("#verdict-files", [`${top}/examples/double_vote.hsx`]);
    await browser.until(`!by("fault").hidden`);
    compare("The checker stopped 0", (await browser.tell(`by("fault").textContent.slice(0, 19) + " " + document.querySelectorAll("#answers article").length`)), "a checker that stopped");
    // No answer stands beside another file's name: not while it is read, not where it can't be read, not behind a module that stopped.
    await browser.send("Page.navigate", { url: pathToFileURL(page).href });
    await browser.until(`document.documentElement.dataset.ready === "yes"`);
    await browser.pick("#committee-file", [`${top}/examples/committee.hsc`]);
    await browser.until(`committee !== null`);
    await tellChain(chain);
    const good = async () => {
      await browser.pick("#verdict-files", [`${top}/examples/double_vote.hsx`]);
      await browser.until(`document.querySelectorAll("#answers article.is-good").length === 1`);
    };
    const cards = `document.querySelectorAll("#answers article").length`;
    await good();
    compare(0, await browser.tell(`(() => { take("verdicts", [{ name: "slow", size: 1, slice: () => ({ arrayBuffer: () => new Promise(() => {}) }) }]); return ${cards}; })()`), "answers while a file is read");
    await good();
    await browser.tell(`take("verdicts", [{ name: "unreadable", size: 1, slice: () => ({ arrayBuffer: () => Promise.reject(new Error("no..")) }) }])`);
    compare("0 unreadable could not be read: no. Nothing was judged.", await browser.tell(`${cards} + " " + by("fault").textContent`), "a file that can't be read");
    await good();
    await browser.tell(`take("verdicts", [])`);
    compare(0, await browser.tell(cards), "answers where no file is named");
    await good();
    await browser.tell(`checker.committee = () => { throw new Error("trap"); }`);
    await browser.pick("#committee-file", [`${top}/examples/committee.hsc`]);
    await browser.until(`!by("fault").hidden`);
    await browser.pick("#verdict-files", [`${top}/examples/lock_violation.hsx`]);
    compare("0 Nothing was judged.", await browser.tell(`${cards} + " " + by("summary").textContent`), "answers behind a module that stopped");
    // A page that came over plain HTTP from another machine has the module's digests all the same.
    const { identifier } = await browser.send("Page.addScriptToEvaluateOnNewDocument", { source: "Object.defineProperty(crypto, 'subtle', { value: undefined })" });
    await browser.send("Page.navigate", { url: pathToFileURL(page).href });
    await browser.until(`document.documentElement.dataset.ready === "yes"`);
    await browser.pick("#committee-file", [`${top}/examples/committee.hsc`]);
    await browser.until(`committee !== null`);
    await tellChain(chain);
    await good();
    compare(true, (await browser.tell(`by("committee-shown").textContent`)).includes(digest(`${top}/examples/committee.hsc`)), "a digest over plain HTTP");
    await browser.send("Page.removeScriptToEvaluateOnNewDocument", { identifier });
    // A browser without memories of 64 bits is told where to go, and so is one that runs no script; neither has a place for a file.
    const elsewhere = `[document.getElementById("elsewhere").offsetHeight > 0, document.getElementById("desk").offsetHeight > 0].join()`;
    await browser.send("Page.addScriptToEvaluateOnNewDocument", { source: "WebAssembly.validate = () => false" });
    await browser.send("Page.navigate", { url: pathToFileURL(page).href });
    await browser.until(`document.readyState === "complete"`);
    compare("true,false", await browser.tell(elsewhere), "no memory64");
    if (pictures) await browser.picture(`${pictures}/elsewhere.png`);
    await browser.send("Emulation.setScriptExecutionDisabled", { value: true });
    await browser.send("Page.navigate", { url: pathToFileURL(page).href });
    await new Promise((then) => setTimeout(then, 300));
    await browser.send("Emulation.setScriptExecutionDisabled", { value: false });
    compare("true,false", await browser.tell(elsewhere), "no script");
  } finally {
    await browser.close();
  }
  console.log(`chromium: ${passed} passed, ${failed} failed`);
  process.exitCode = failed ? 1 : 0;
}
main();

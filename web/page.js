// The page around the checker. Every text that comes of a file goes into the page as text, never as markup.
const by = (id) => document.getElementById(id);

function made(name, words, ...inside) {
  const element = document.createElement(name);
  for (const [word, value] of Object.entries(words)) element.setAttribute(word, value);
  element.append(...inside);
  return element;
}

const idOf = (digits) => made("span", { class: "id" }, digits);

/** As many characters of a file's name are shown. */
const LONGEST_NAME = 80;

/** A file's name, cut where it is long. It has a place of its own, so that no character of it turns the words around it round. */
function nameOf({ name }) {
  const letters = Array.from(name);
  return made("bdi", {}, letters.length > LONGEST_NAME ? `${letters.slice(0, LONGEST_NAME - 1).join("")}\u2026` : name);
}

/** The digits of an id in groups of four. */
function chainOf(id) {
  return made("p", { class: "chain id" }, ...id.match(/.{4}/g).flatMap((group) => [made("span", {}, group), " "]));
}

const RULES = {
  1: { name: "a double vote", says: "A correct replica votes once in a view." },
  2: { name: "a lock violation", says: "A correct replica votes for no block that leaves the one it is locked on, unless the block\u2019s parent is of a later view than the lock." },
};
const NEXT = "What to do: the committee\u2019s operators remove this replica\u2019s keys from the next committee. Each of them can check this file anew, with this page or with hs_check.";
const NOT_SAID = "What it does not say: why, or when. A replica with a stolen key, and one that was put back to a backup and voted again, look the same as one that lies.";
const PROVES = "This proves, and no more, that the replica\u2019s keys in this committee come from those of its slot in the first committee by these steps, each of which a quorum of the committee before it committed. In a step that says new, its own key of the committee before signed for its next keys; where it says kept, they are the same. Where it says by hand, it is not shown that anybody signed for them: an operator was taken at his word there, or the renewal was left out. Where it says absent, there is no such slot.";
const RESTS_ON = "It rests on keys: whoever has old keys of a quorum of an earlier committee can make a second lineage, which looks as good from your committee\u2019s file alone. It also takes it that no two different files or headers have one SHA-256. So compare the chain id of the verdict\u2019s committee with somebody who followed the ledger then. The newest one tells less: a second lineage may end in the same committee.";
const BY_WHOM = "The verdict, each signature and each SHA-256 were judged by the proved checker. How a step hangs together was judged by lines of this page that are not proved: they were compared with hs_follow.";
const STEP_SAYS = {
  2: "Its file is no committee\u2019s.",
  3: "It has a key of the committee before in a slot that may not keep it.",
  4: "Its light proof is missing or broken.",
  5: "Its light proof does not prove that the committee before handed over.",
  6: "The committee before handed over to another file.",
  7: "Its renewal is broken.",
  8: "By its renewal it does not renew the committee before.",
};
const MAKE_IT = "Make it of the lineage\u2019s folder so: zip -0 -r lineage.zip FOLDER";
const TITLE = document.title;

let checker = null;
let committee = null; // { name, size, bytes, digest, shown }
let lineage = null; // { name, pieces, fault, judged }: what the zip has, or why it is none; and the Lineage from the committee on
let verdicts = []; // { name, size, bytes, digest, said, under, found, place, why }: judged after so many steps, or why not
let ground = {}; // what verdicts are judged under: another one once the committee or the lineage is another
const unread = { committee: [], lineage: [], verdicts: [] }; // the picked files that could not be read: { name, reason }
const latest = { committee: 0, lineage: 0, verdicts: 0, walk: 0, told: 0 };

/** What is compared: the digits that were entered, what they are beside the committee's chain id, and whether they were copied from this page. */
const compared = { is: "open", copied: "", isPastedBack: false };

const digitsOf = (text) => text.replace(/[\s:.-]/g, "").toLowerCase();

/** The first bytes of a file: of a longer one than any committee or verdict the checker refuses these by their length, as hs_check does. */
async function textOf(file) {
  return { name: file.name, size: file.size, bytes: new Uint8Array(await file.slice(0, MOST).arrayBuffer()) };
}

const withDigest = (text) => ({ ...text, digest: text.size <= MOST ? checker.digest(text.bytes) : null });

function showFault(...parts) {
  by("fault").replaceChildren(...parts);
  by("fault").hidden = false;
}

/** A line with a file's digest; of a longer file than can be judged whole, that it has none. */
function digestOf(what, { digest, size }) {
  if (digest !== null) return made("p", { class: "soft" }, `SHA-256 of ${what}: `, idOf(digest));
  return made("p", { class: "soft" }, `The file has ${size.toLocaleString("en")} bytes. Of these the first ${MOST.toLocaleString("en")} were read.`);
}

function replicasOf(shown) {
  const rows = shown.replicas.map((it, replica) => made("tr", {}, made("th", { scope: "row" }, `${replica}`),
    made("td", {}, `${it.weight}`), made("td", { class: "id" }, ...it.keys.flatMap(({ keyId }, k) => (k ? [made("br", {}), keyId] : [keyId])))));
  return made("details", { class: "screen" }, made("summary", {}, `The ${shown.n} replicas and the ids of their keys`),
    made("div", { class: "wide" }, made("table", {},
      made("thead", {}, made("tr", {}, ...["Replica", "Weight", "Key ids"].map((it) => made("th", { scope: "col" }, it)))),
      made("tbody", {}, ...rows))));
}

function showCommittee() {
  const at = by("committee-shown");
  at.replaceChildren();
  by("compare").hidden = committee === null || committee.shown.answer !== 0;
  if (committee === null) return;
  const { shown } = committee;
  if (shown.answer !== 0) {
    const refusal = COMMITTEE_REFUSALS[-shown.answer];
    at.append(made("p", { class: "said bad" }, "\u2718 ", nameOf(committee), ` is no committee (${-shown.answer} ${refusal.name})`), made("p", {}, refusal.says));
    return;
  }
  const size = shown.weighted
    ? `${shown.n} replicas of weight ${shown.total} together, of which a quorum is ${shown.quorum}`
    : `${shown.n} replicas, of which ${(shown.n - 1) / 3} may be faulty and a quorum is ${shown.quorum}`;
  at.append(made("p", {}, made("strong", {}, nameOf(committee)), `: ${size}.`), digestOf("the file", committee),
    made("p", {}, "Its chain id, to compare with the one that you were told:"), chainOf(shown.chain), replicasOf(shown));
}

/** Compares what was entered, and shows that. Answers whether this changes what is said of verdicts. */
function compare() {
  const was = compared.is;
  if (committee === null || committee.shown.answer !== 0) {
    compared.is = "open";
    return was !== "open";
  }
  const told = digitsOf(by("told").value);
  const { chain } = committee.shown;
  if (told === "") compared.isPastedBack = false;
  const stranger = told.match(/[^0-9a-f]/u);
  compared.is = compared.isPastedBack ? "copied" : told === chain ? "same" : chain.startsWith(told) ? "open" : "other";
  const said = by("told-said");
  said.className = `said ${{ same: "good", open: "", copied: "bad", other: "bad" }[compared.is]}`;
  said.textContent = told === "" ? "" : {
    same: "\u2714 It is the same chain id.",
    open: `The same so far: ${told.length} of 64 digits.`,
    copied: "You copied this from this page, which compares nothing. Enter the chain id that you were told elsewhere.",
    other: stranger ? `\u2718 A chain id has the digits 0 to 9 and a to f alone, and not \u201c${stranger[0]}\u201d.`
      : "\u2718 It is another chain id. Nothing is judged: this is not your committee\u2019s file, or a digit is wrong.",
  }[compared.is];
  by("told").setAttribute("aria-invalid", `${["other", "copied"].includes(compared.is)}`);
  // Until an id was entered, the one that is shown can't be copied into the place for it.
  by("committee-shown").classList.toggle("may-copy", ["same", "other"].includes(compared.is));
  return was !== compared.is;
}

/** What two votes and the headers behind them say, side by side. Where that is proved, under a committee that was compared, the
 * rows that break the rule are marked. */
function votesOf(said, isGood, isCompared) {
  const { first, second, headers, rule } = said;
  const rows = [
    ["View", `${first.view}`, `${second.view}`, rule === 1 && first.view === second.view],
    ["Block", first.id, second.id, rule === 1 && first.id !== second.id],
    ["Key of the replica", `${first.key}`, `${second.key}`, false],
    ["One-time key", `${first.index}`, `${second.index}`, false],
  ];
  if (headers !== null) {
    rows.push(["Parent\u2019s view", `${headers.first.parentView}`, `${headers.second.parentView}`, false],
      ["Parent block", headers.first.parent, headers.second.parent, false],
      ["Lock", `once it was cast, of view ${headers.parent.parentView}, that of the block\u2019s grandparent, or of a later one`,
        `its parent\u2019s view is ${headers.second.parentView}`, headers.second.parentView < headers.parent.parentView]);
  }
  return made("div", { class: "wide" }, made("table", {},
    made("caption", {}, isGood ? `Two votes of replica ${said.replica}` : `What the file says of replica ${said.replica}, which is not proved`),
    made("thead", {}, made("tr", {}, made("td", {}), made("th", { scope: "col" }, "First vote"), made("th", { scope: "col" }, "Second vote"))),
    made("tbody", {}, ...rows.map(([name, one, other, tells]) => {
      const isMarked = tells && isGood && isCompared;
      const how = { class: `${one.length === 64 ? "id" : ""}${isMarked ? " tells" : ""}`.trim() };
      const cell = (text) => made("td", how, isMarked ? made("strong", {}, text) : text);
      return made("tr", {}, made("th", { scope: "row" }, name), cell(one), cell(other));
    }))));
}

/** What breaks the rule, in a sentence. */
function storyOf(found, said) {
  if (found.rule === 1) return `It signed two votes for different blocks in view ${found.view}.`;
  const { parent, second } = said.headers;
  return `Once it had voted in view ${said.first.view}, its lock was the grandparent of that vote\u2019s block, of view ${parent.parentView}, or a block of a later view, whatever had put it there. Its vote in view ${found.view} is for a block that does not build on that lock: the parent of that block is of view ${second.parentView}.`;
}

/** The heading of an answer, and the sentences below it. */
function acceptedOf({ found, said, place }, isCompared) {
  const { name, says } = RULES[found.rule];
  const accused = `replica ${found.replica}${place ? ` of the committee after step ${place}` : ""} broke rule ${found.rule}, ${name}`;
  if (isCompared && place) return [`Accepted by the steps of a lineage: ${accused}, if that committee is the ledger\u2019s`, made("p", {}, storyOf(found, said), " ", says)];
  const answer = isCompared ? `\u2714 Accepted: ${accused}` : `Accepted under a committee that you have not compared: ${accused}, if it is yours`;
  return [answer, made("p", {}, storyOf(found, said), " ", says)];
}

function refusedOf({ found, bytes, place }, isCompared) {
  const { name, says } = REFUSALS[found.answer];
  const answer = `${isCompared ? "\u2718 Refused" : "Refused under a committee that you have not compared"}: ${found.answer} ${name}`;
  const parts = [made("p", {}, says, " It proves nothing.")];
  const magic = String.fromCharCode(...bytes.subarray(0, 4));
  if (/^HSC[123]$/.test(magic)) parts.push(made("p", {}, "It looks like a committee: pick it above."));
  if (magic === "PK\x03\x04") parts.push(made("p", {}, "It looks like a zip file: pick it as the lineage."));
  if (name === "Chain") parts.push(made("p", {}, "If it is of a committee that followed yours, pick the lineage from yours on, too."));
  if (place) parts.push(made("p", {}, `It was judged under the committee after step ${place} of the lineage.`));
  return [answer, ...parts];
}

/** Lines as hs_follow and hs_show print them, in a place that scrolls where they are many. */
const linesOf = (name, lines) => made("div", { class: "lines id", role: "region", "aria-label": name, tabindex: "0" }, ...lines.map((it) => made("div", {}, it)));

/** By which steps a verdict's committee came, what the accused replica's slot is in each, and what that proves. */
function stepsOf({ found, place }) {
  if (place === 0) return [made("p", {}, "It is of the committee that you picked: no step of the lineage was needed.")];
  const { judged } = lineage;
  return [made("p", {}, "The steps from the first committee to this one:"), linesOf("Steps to the verdict\u2019s committee", judged.lines.slice(0, place)),
    made("p", {}, "The replica\u2019s slot in each of them:"), linesOf("The replica\u2019s slot in each step", judged.waysOf(found.replica, place)),
    made("p", {}, PROVES), made("p", {}, `${RESTS_ON} It is that of step ${place}:`),
    chainOf(judged.committee(place).chain), made("p", {}, BY_WHOM),
    made("p", { class: "soft" }, `SHA-256 of the file of the committee after step ${place}: `, idOf(checker.digest(judged.committee(place).text)))];
}

/** What else stands on the sheet of an accepted verdict: what to do, what is not said, and what it rests on. */
function sheetOf(verdict) {
  return [made("p", {}, NEXT), made("p", {}, NOT_SAID),
    made("div", { class: "paper-only" }, made("p", {}, "Chain id, compared with the one that was told:"), chainOf(committee.shown.chain),
      digestOf("the committee\u2019s file", committee)),
    digestOf("this verdict\u2019s file", verdict),
    made("div", { class: "paper-only soft" }, made("p", {}, by("meaning").textContent),
      made("p", {}, `${by("version").textContent} Judged on ${new Date().toISOString().slice(0, 10)}, by this machine\u2019s clock.`))];
}

/** A card with an answer as its heading; the file's name stands below it. */
function cardWith(verdict, number, colour, answer, ...parts) {
  const heading = made("h3", { class: "answer", id: `answer-${number}` }, answer);
  return made("article", { class: `card verdict ${colour}`.trim(), "aria-labelledby": heading.id }, heading,
    made("p", { class: "soft file" }, "File: ", nameOf(verdict)), ...parts);
}

/** The card of a verdict, judged or not. */
function cardOf(verdict, number) {
  if (verdict.why !== null) return cardWith(verdict, number, "", "Not judged", made("p", {}, verdict.why));
  const isCompared = compared.is === "same";
  const isGood = verdict.found.answer === 0;
  // Which committee came after others the reader has to compare elsewhere.
  const colour = !isCompared || (isGood && verdict.place > 0) ? "" : isGood ? "is-good" : "is-bad";
  const card = cardWith(verdict, number, colour, ...(isGood ? acceptedOf(verdict, isCompared) : refusedOf(verdict, isCompared)));
  card.dataset.line = lineOf(verdict.found);
  if (verdict.said !== null) card.append(votesOf(verdict.said, isGood, isCompared));
  if (isGood && lineage !== null) card.append(...stepsOf(verdict));
  if (isGood && isCompared) card.append(...sheetOf(verdict));
  else if (verdict.size > MOST) card.append(digestOf("", verdict));
  return card;
}

/** Numbers in a sentence: "1", "1 and 2", "1, 2 and 5". */
const listed = (numbers) => numbers.join(", ").replace(/, (\d+)$/, " and $1");

/** One sentence of all answers, which is also what a reader that speaks is told; and what the title says. */
function summaryOf() {
  const judged = verdicts.filter((it) => it.why === null);
  const good = judged.filter((it) => it.found.answer === 0);
  const accused = [...new Set(good.map((it) => it.found.replica))].sort((a, b) => a - b);
  const isOfOne = new Set(good.map((it) => it.place ?? 0)).size <= 1;
  const whom = accused.length && isOfOne ? ` (${accused.length === 1 ? "replica" : "replicas"} ${listed(accused)})` : "";
  const left = verdicts.length - judged.length;
  return [`${good.length} accepted${whom}, ${judged.length - good.length} refused${left ? `, ${left} not judged` : ""}`, compared.is === "same"];
}

function showSummary() {
  const summary = by("summary");
  document.title = TITLE;
  if (committee === null) summary.textContent = verdicts.length ? "Pick the committee first." : "Pick a committee and a verdict.";
  else if (committee.shown.answer !== 0) summary.textContent = "Nothing was judged: the first file is no committee.";
  else if (compared.is === "other") summary.textContent = "Nothing was judged: the committee has another chain id than you were told.";
  else if (!verdicts.length) summary.textContent = unread.verdicts.length ? "Nothing was judged." : "Pick a verdict.";
  else if (verdicts.some(isWaiting)) tellProgress();
  else {
    const [said, isCompared] = summaryOf();
    const end = isCompared ? "." : ", which you have not compared: enter the chain id that you were told.";
    const further = verdicts.some((it) => it.place > 0) ? " and its lineage" : "";
    summary.replaceChildren(`${said}, under `, nameOf(committee), `${further}${end}`);
    document.title = `${said}${isCompared ? "" : ", not compared"} \u2013 ${TITLE}`;
  }
}

const hasCommittee = () => committee !== null && committee.shown.answer === 0;

/** Whether steps have to be judged before the verdict can be. */
const isWaiting = (verdict) => verdict.under !== ground;

/** After how many steps the verdict's committee comes; why that can't be said; or null, if more steps have to be judged first. A verdict that
 * can't be read is judged under the first committee, as each is without a lineage. */
function placeOf({ said }) {
  if (lineage === null || said === null || said.chain === committee.shown.chain) return { place: 0, why: null };
  const { judged, fault } = lineage;
  const place = judged?.placeOf(said.chain) ?? null;
  if (place !== null) return { place, why: null };
  if (fault !== null) return { place, why: "It is of another committee than the one that you picked, and the lineage can\u2019t be read." };
  if (!judged.isOver) return null;
  if (judged.refused !== null) return { place, why: `It is of none of the committees before step ${judged.steps.length + 1}, and that step of the lineage is refused. No later committee is judged.` };
  return { place, why: `No committee of this lineage has its chain: neither the one that you picked nor those of the ${judged.steps.length} steps.` };
}

/** Judges each verdict that can be judged now and was not, once. */
function judge() {
  if (!hasCommittee()) return;
  for (const verdict of verdicts.filter(isWaiting)) {
    const known = placeOf(verdict);
    if (known === null) continue;
    Object.assign(verdict, known, { under: ground });
    if (known.why === null) verdict.found = checker.check(known.place ? lineage.judged.committee(known.place).text : committee.bytes, verdict.bytes);
  }
}

/** Judges the next step. If a file of it can't be read the lineage is faulty. */
async function judgeStepOf(it) {
  try {
    await it.judged.judgeNext();
  } catch (error) {
    if (error instanceof WebAssembly.RuntimeError) throw error;
    it.fault = error.message;
  }
}

/** Judges steps until each verdict can be judged, or until something else was picked. */
async function walk() {
  const turn = ++latest.walk;
  const isOld = () => turn !== latest.walk || checker === null;
  if (!hasCommittee() || !verdicts.some(isWaiting)) return;
  try {
    while (verdicts.some(isWaiting)) {
      await judgeStepOf(lineage);
      if (isOld()) return;
      judge();
      if (Date.now() - latest.told >= 1000 && compared.is !== "other") tellProgress();
    }
    showLineage();
    showAnswers();
  } catch (error) {
    if (checker !== null) stop(error);
  }
}

/** Says how far the lineage is judged. */
function tellProgress() {
  latest.told = Date.now();
  by("summary").textContent = `Judging the lineage: ${lineage.judged.steps.length} of ${stepsIn(lineage)} so far.`;
}

/** How far the lineage was judged, in a sentence, and the lines of the steps. */
function judgedOf({ judged }) {
  const good = judged.steps.length, { count } = judged.pieces;
  if (verdicts.some(isWaiting)) return [made("p", {}, "Its steps are being judged.")];
  if (good === 0 && !judged.isOver) return [made("p", {}, "No step was judged: steps are judged as far as a verdict asks.")];
  const lines = judged.isOver ? [...judged.lines, judged.lastLine] : judged.lines;
  const said = [made("p", {}, judged.isOver ? "All of them are good." : `Step${good === 1 ? " 1 is" : `s 1 to ${good} are`} good. No later one was judged, since no verdict asks for it.`)];
  if (judged.refused !== null) said[0] = made("p", { class: "said bad" }, `\u2718 Step ${good + 1} is refused: ${judged.refused.message}. ${STEP_SAYS[judged.refused.number]} No later committee is judged.`);
  else if (judged.isOver && judged.pieces.later !== null) said[0] = made("p", { class: "said bad" }, `\u2718 Step ${good + 1} is missing, so it was judged up to step ${good}.`);
  return count ? [...said, linesOf("Steps", lines)] : said;
}

const stepsIn = ({ pieces }) => `${pieces.count} ${pieces.count === 1 ? "step" : "steps"}`;

function showLineage() {
  const at = by("lineage-shown");
  at.replaceChildren();
  by("lineage-clear").hidden = lineage === null;
  if (lineage === null) return;
  if (lineage.fault !== null) at.append(made("p", { class: "said bad" }, "\u2718 ", nameOf(lineage), ` can\u2019t be read as a lineage: ${lineage.fault.replace(/[.\s]+$/, "")}.`), made("p", {}, MAKE_IT));
  else at.append(made("p", {}, made("strong", {}, nameOf(lineage)), `: ${stepsIn(lineage)}.`));
  if (lineage.judged !== null) at.append(...judgedOf(lineage));
}

function showAnswers() {
  const hasAnswers = hasCommittee() && compared.is !== "other";
  by("answers").replaceChildren(...(hasAnswers ? verdicts.filter((it) => !isWaiting(it)).map(cardOf) : []));
  showSummary();
}

/** A module that stopped in a call answers nothing more. */
function stop(error) {
  checker = null;
  by("answers").replaceChildren();
  by("summary").textContent = "Nothing was judged.";
  document.title = TITLE;
  if (error !== null) showFault(`The checker stopped: ${error.message}. Nothing was judged. Load the page again.`);
}

/** Shows what was picked, judged where it is new. */
function show() {
  if (checker === null) return stop(null);
  try {
    judge();
    compare();
    showLineage();
    showAnswers();
  } catch (error) {
    return stop(error);
  }
  walk();
}

/** At each digit that is entered: the answers are shown anew only where they read otherwise then, and judged never. */
function enter() {
  if (checker !== null && compare()) showAnswers();
}

/** Which files could not be read, each by its name. */
function tellUnread() {
  const parts = Object.values(unread).flat().flatMap((it) => [nameOf(it), ` could not be read: ${it.reason.replace(/[.\s]+$/, "")}. `]);
  const areJudged = hasCommittee() && compared.is !== "other" && verdicts.length > 0;
  if (parts.length) showFault(...parts, areJudged ? "The others were judged." : "Nothing was judged.");
}

/** What the zip of a lineage has, or why it is none. */
async function lineageOf(file) {
  try {
    return { name: file.name, pieces: await ZippedPieces.open(file), fault: null, judged: null };
  } catch (error) {
    if (!(error instanceof NoZip)) throw error;
    return { name: file.name, pieces: null, fault: error.message, judged: null };
  }
}

/** Puts what was read in its place: of the committee and the lineage all, of which there is one at the most. */
function put(what, texts) {
  if (what === "verdicts") verdicts = texts.map((it) => ({ ...withDigest(it), said: checker.verdict(it.bytes) }));
  else if (what === "lineage") lineage = texts[0] ?? null;
  else committee = texts.length ? { ...withDigest(texts[0]), shown: checker.committee(texts[0].bytes) } : null;
  if (what === "verdicts") return;
  ground = {};
  if (lineage !== null) lineage.judged = hasCommittee() && lineage.pieces !== null ? new Lineage(checker, committee.bytes, lineage.pieces) : null;
}

/** Takes what was picked. What stood there before is forgotten at once: no answer stands beside the name of a file that it is not of. */
async function take(what, files) {
  const turn = ++latest[what];
  unread[what] = [];
  put(what, []);
  if (checker === null) return stop(null);
  by("fault").hidden = true;
  if (what === "committee") showCommittee();
  show();
  if (!files.length) return;
  const picked = what === "verdicts" ? Array.from(files) : [files[0]];
  const read = await Promise.allSettled(picked.map(what === "lineage" ? lineageOf : textOf));
  if (turn !== latest[what] || checker === null) return; // later files were picked meanwhile
  unread[what] = read.flatMap((it, i) => (it.status === "rejected" ? [{ name: picked[i].name, reason: it.reason.message }] : []));
  try {
    put(what, read.filter((it) => it.status === "fulfilled").map((it) => it.value));
  } catch (error) {
    return stop(error);
  }
  if (what === "committee") showCommittee();
  show();
  if (checker !== null) tellUnread();
}

/** Leaves the lineage out again. */
function clearLineage() {
  by("lineage-file").value = "";
  by("lineage-file").focus();
  take("lineage", []);
}

function listen(what, input, drop) {
  by(input).addEventListener("change", (event) => take(what, event.target.files));
  const over = (isOver) => (event) => {
    event.preventDefault();
    by(drop).classList.toggle("over", isOver);
  };
  by(drop).addEventListener("dragover", over(true));
  by(drop).addEventListener("dragleave", over(false));
  by(drop).addEventListener("drop", (event) => {
    over(false)(event);
    if (!event.dataTransfer.files.length) return;
    by(input).files = event.dataTransfer.files; // so that the input names them too
    take(what, by(input).files);
  });
}

/** What was copied or dragged from this page is no chain id that somebody was told. */
function listenForCopies() {
  const note = () => {
    compared.copied = digitsOf(`${getSelection()}`);
  };
  for (const name of ["copy", "cut", "dragstart"]) document.addEventListener(name, note);
  by("told").addEventListener("beforeinput", (event) => {
    const text = digitsOf(event.data ?? event.dataTransfer?.getData("text/plain") ?? "");
    if (["insertFromPaste", "insertFromDrop"].includes(event.inputType) && text !== "" && compared.copied.includes(text)) compared.isPastedBack = true;
  });
  by("told").addEventListener("input", enter);
}

async function begin() {
  // A file that is dropped beside the places for it would be opened in place of the page.
  for (const name of ["dragover", "drop"]) window.addEventListener(name, (event) => event.preventDefault());
  if (!hasMemory64()) return;
  try {
    checker = await Checker.open();
  } catch (error) {
    showFault(`The checker could not be started: ${error.message}`);
    return;
  }
  by("elsewhere").hidden = true;
  by("desk").hidden = false;
  listen("committee", "committee-file", "committee-drop");
  listen("lineage", "lineage-file", "lineage-drop");
  listen("verdicts", "verdict-files", "verdicts-drop");
  by("lineage-clear").addEventListener("click", clearLineage);
  listenForCopies();
  document.documentElement.dataset.ready = "yes";
  // What a browser kept in the inputs over a reload.
  await take("committee", by("committee-file").files);
  await take("lineage", by("lineage-file").files);
  await take("verdicts", by("verdict-files").files);
}

begin();

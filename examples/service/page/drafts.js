// A draft of a book as a table: opened, changed, checked and released. What is wrong with it the desk says; this page puts it in
// sentences, beside the records that it speaks of.

import { ask, askDraft, readBooks, readReport, trouble } from "/page/desk.js";
import { FIELDS, readRecords, writeRecord } from "/page/book.js";
import { bookFault, oddQuotes, whole as wholeSentence } from "/page/faults.js";
import { button, days, el, name, put, say, text, working } from "/page/parts.js";

const ROWS_AT_ONCE = 100;
const LARGEST_BUDGET = 50000;

// The draft that is open: its records, which of them are changed, and where in the table one is.
const open = { draft: null, owner: null, revision: 0, before: "", records: [], head: "", last: null, changed: false, kind: "", words: "", from: 0 };
const place = {};
let caller = "";

export async function start(name_of_caller) {
  caller = name_of_caller;
  place.draft = el("input", { id: "draft", autocomplete: "off", autocapitalize: "characters", spellcheck: "false", maxlength: 8, size: 10, list: "draft-names" });
  place.names = el("datalist", { id: "draft-names" });
  place.file = el("input", { id: "file", type: "file", accept: ".csv,text/csv", onchange: () => putFile() });
  place.head = el("div");
  place.report = el("section", { class: "card report", tabindex: -1, hidden: true, "aria-labelledby": "report-title" });
  place.table = el("div");
  put(document.getElementById("drafts"), el("h1", { id: "drafts-title" }, "Drafts of books"),
    el("form", { class: "fields", onsubmit: (event) => { event.preventDefault(); openDraft(wanted()); } },
      el("p", null, el("label", { for: "draft" }, "Name of the draft"), place.draft, place.names),
      el("p", null, el("button", { type: "submit" }, "Open")),
      el("p", null, el("label", { for: "file" }, "or put a file as its text"), place.file)),
    place.head, place.report, place.table);
  const answer = await ask("GET", "/books");
  if (answer.good) put(place.names, [...new Set(readBooks(answer).map((book) => book.draft))].map((draft) => el("option", { value: draft })));
}

function wanted() {
  return place.draft.value.trim().toUpperCase();
}

function named(draft) {
  if (/^[A-Z0-9]{1,8}$/.test(draft)) return true;
  say("A draft's name has one to eight letters and digits.", true);
  return false;
}

async function openDraft(draft) {
  if (!named(draft) || !mayLeave()) return;
  const [whole, owner] = [await askDraft(draft), await ask("GET", `/drafts/${draft}/owner`)];
  if (!whole.good || !owner.good) return say(trouble(whole.good ? owner : whole), true);
  place.report.hidden = true;
  Object.assign(open, { draft, owner: owner.words[1], revision: +owner.words[3], changed: false, kind: "", words: "", from: 0 });
  const read = whole.text === null ? { records: [], before: "" } : readRecords(whole.text);
  Object.assign(open, read, { head: whole.head, last: await lastBook(draft) });
  say(whole.text === null ? "The text is no UTF-8, and can't be shown. Put a file in its place." : "", whole.text === null);
  place.draft.value = draft;
  drawHead();
  drawTable();
}

// The last book that was released of a draft, with how many records it has; or null.
async function lastBook(draft) {
  const books = await ask("GET", "/books");
  const last = books.good ? readBooks(books).filter((book) => book.draft === draft).at(-1) : undefined;
  if (last === undefined) return null;
  const text = await ask("GET", `/books/${last.number}`);
  return text.good ? { number: last.number, records: readRecords(text.text).records.length } : null;
}

function mayLeave() {
  return !open.changed || confirm(`What you changed in ${open.draft} isn't saved. Go on without it?`);
}

async function putFile() {
  const [file] = place.file.files;
  place.file.value = "";
  const draft = wanted();
  if (file === undefined || !named(draft) || !mayLeave()) return;
  const answer = await ask("PUT", `/drafts/${draft}`, file);
  if (!answer.good) return say(trouble(answer), true);
  open.changed = false;
  await openDraft(draft);
  say(`Kept as revision ${open.revision} of ${draft}.`);
}

// What can be done with the draft.

function drawHead() {
  const own = open.owner === caller;
  place.save = button("Save", () => working(place.save, "The desk keeps it", save));
  place.check = button("Check", () => working(place.check, "The desk checks it", () => check()), { class: "main" });
  place.release = button("Release as a book", () => working(place.release, "The desk checks and releases it", release));
  place.state = el("p", { class: "soft" });
  place.odd = el("div");
  put(place.head, el("h2", null, `Draft ${open.draft}`), place.state, place.odd,
    el("p", { class: "actions" }, own ? [place.save, " ", place.check, " ", place.release, " "] : null,
      el("a", { href: `/drafts/${open.draft}`, download: `${open.draft}.csv` }, "Download")));
  drawState();
}

function drawState() {
  put(place.state, `${open.owner === caller ? "It is yours" : `It is ${open.owner}'s, who alone can change it`}; revision ${open.revision}${open.changed ? ", changed here and not yet saved" : ""}. `,
    counts(), ".");
  return drawOdd();
}

function counts() {
  const now = `${open.records.length} record${open.records.length === 1 ? "" : "s"}`;
  return open.last === null ? now : `${now}; book ${open.last.number} had ${open.last.records}`;
}

// What an engineer should look at before a release, though the text may well be a book: quotes that hide records, and a text that
// has lost half of what its last book had.
async function oddities() {
  const { records } = readRecords(whole());
  const lines = await Promise.all(oddQuotes(records).map(([key, words]) => wholeSentence(key, words, key.startsWith("quote open") ? words.first : null)));
  if (open.last !== null && records.length * 2 < open.last.records) lines.push(el("span", null, `The draft has ${counts()}.`));
  return lines;
}

async function drawOdd() {
  const lines = await oddities();
  put(place.odd, lines.length === 0 ? null : el("ul", { class: "odd" }, lines.map((line) => el("li", null, line))));
}

function whole() {
  return open.before + open.records.map((record) => record.raw).join("");
}

// Saves what was changed, unless somebody has put another text meanwhile.
async function save() {
  if (!open.changed) return true;
  const owner = await ask("GET", `/drafts/${open.draft}/owner`);
  if (!owner.good) return failed(owner);
  if (+owner.words[3] !== open.revision && !confirm(`The draft has revision ${owner.words[3]} by now, and you changed revision ${open.revision}. Put yours over it?`)) return false;
  const answer = await ask("PUT", `/drafts/${open.draft}`, whole());
  if (!answer.good) return failed(answer);
  open.revision = +answer.words[2];
  open.changed = false;
  drawState();
  say(`Saved as revision ${open.revision}.`);
  return true;
}

function failed(answer) {
  say(trouble(answer), true);
  return false;
}

async function check(budget) {
  if (!(await save())) return;
  const answer = await ask("POST", `/drafts/${open.draft}/check`, budget === undefined ? "" : { budget });
  if (answer.good) drawReport(readReport(answer.lines));
  else if (answer.status === 422) await drawFault(answer.words);
  else failed(answer);
}

async function release() {
  if (open.changed) return say("Save and check what you changed first.", true);
  const lines = await oddities();
  if (lines.length === 0) return releaseIt();
  const surely = button("Release all the same", () => working(surely, "The desk checks and releases it", releaseIt));
  return drawPart("Release all the same?", [el("ul", { class: "odd" }, lines.map((line) => el("li", null, line))),
    el("p", null, counts(), ". A book that was released can't be changed: dealers order from it as it is."),
    el("p", { class: "actions" }, surely, " ", button("Don't release it", () => { place.report.hidden = true; place.release.focus(); }))]);
}

async function releaseIt() {
  const answer = await ask("POST", `/drafts/${open.draft}/release`, { revision: open.revision, budget: LARGEST_BUDGET });
  if (answer.good) {
    drawPart("It is a book", [el("p", { class: "verdict ok" }, answer.status === 201 ? `Revision ${open.revision} is book ${answer.words[1]} now, and takes orders.`
      : `Revision ${open.revision} was released before, as book ${answer.words[1]}.`)]);
    open.last = await lastBook(open.draft);
    await drawState();
    say(`Released as book ${answer.words[1]}.`);
  } else if (answer.status === 422) {
    if (answer.words[0] === "found" || answer.words[0] === "undecided") drawReport(readReport(answer.lines.slice(1)));
    else await drawFault(answer.words);
  } else failed(answer);
}

// What the desk found.

function drawPart(title, children) {
  place.report.hidden = false;
  put(place.report, el("h2", { id: "report-title" }, title), children);
  place.report.focus();
}

const VERDICTS = {
  releasable: ["ok", "It can be released."],
  blocked: ["no", "It can't be released: what is marked with ! keeps it back."],
  undecided: ["no", "Nothing was found that keeps it back, but a question was given up."],
};

function drawReport(report) {
  const [look, sentence] = VERDICTS[report.verdict];
  const clear = report.slices.filter((slice) => slice.findings.length === 0).length;
  const open_question = report.slices.some((slice) => slice.findings.some((finding) => finding.after !== null));
  say(sentence, false, true);
  drawPart("What the check says", [
    el("p", { class: `verdict ${look}` }, sentence),
    open_question ? button("Check with the largest budget", (event) => working(event.target, "The desk checks it", () => check(LARGEST_BUDGET))) : null,
    report.slices.filter((slice) => slice.findings.length > 0).map((slice) => [el("h3", null, capital(days(slice.first, slice.last))),
      el("ul", { class: "findings" }, blockingFirst(slice.findings).map((finding) => findingPart(finding, slice)))]),
    clear === 0 ? null : el("p", { class: "soft" }, `${clear === report.slices.length ? "Nothing was found" : "On all other days nothing was found"}: ${clear} of ${report.slices.length} runs of days.`),
  ]);
}

function blockingFirst(findings) {
  return [...findings.filter((finding) => finding.blocks), ...findings.filter((finding) => !finding.blocks)];
}

function capital(words) {
  return words[0].toUpperCase() + words.slice(1);
}

function rowOf(kind, id) {
  return open.records.findIndex((record) => record.fields[0] === kind && record.fields[1] === id);
}

function codePart(code) {
  const said = open.records[rowOf("code", code)]?.fields[2] ?? "";
  return el("span", null, name(code), said === "" ? null : [" ", text(said)]);
}

function findingPart(finding, slice) {
  const { car, blocks, after } = finding;
  return el("li", { class: blocks ? "blocks" : "" },
    el("p", null, blocks ? el("strong", { class: "mark", "aria-label": "Keeps it from its release:" }, "!") : null, " ",
      after === null ? sentence(finding) : ["Undecided after ", after, " clauses: ", sentence(finding, "whether ")]),
    car === null ? null : el("p", { class: "soft" }, "The car: ", car.length === 0 ? "no code" : car.map((code, at) => [at > 0 ? ", " : null, codePart(code)]), "."),
    after !== null ? null : el("p", null, el("span", { class: "soft" }, "To mend it: "), cure(finding, slice)),
    rowsOf(finding).map((at) => [rowButton(at), " "]));
}

// A finding in a sentence.
function sentence({ kind, names: [first, second, third] }, asked = "") {
  const one = asked === "" ? "This car" : "some car";
  const no = asked === "" ? "No car" : "no car";
  const every = asked === "" ? "Every car" : "every car";
  switch (kind) {
    case "void": return `${asked}${no} can be ordered.`;
    case "necessary": return [`${asked}${every} has `, codePart(first), "."];
    case "inadmissible": return [`${asked}${no} has `, codePart(first), "."];
    case "superfluous": return [`${asked}${no} takes `, name(first), partOf(first), "."];
    case "ambiguous": return [`${asked}${one} takes two parts at `, name(first), ": ", name(second), partOf(second), " and ", name(third), partOf(third), "."];
    case "uncovered": return [`${asked}${one} takes no part at `, name(first), ", which is mandatory."];
  }
  return [asked, kind, " ", [first, second, third].filter((word) => word !== undefined).join(" ")];
}

function partOf(variant) {
  const part = open.records[rowOf("variant", variant)]?.fields[3];
  return part === undefined ? "" : ` (part ${part})`;
}

// How a finding is mended, as docs/CHECKING.md has it. Which rules are to blame `partsbook ask` says.
function cure({ kind, names: [first] }, slice) {
  const variant = open.records[rowOf("variant", first)]?.fields;
  switch (kind) {
    case "void": return ["let the end of what was and the beginning of what follows meet; ", blame(slice, "TRUE")];
    case "necessary": return ["nothing, if it is standard equipment. Else narrow the rule that asks for it; ", blame(slice, `-${first}`)];
    case "inadmissible": return ["nothing, if that is meant. Else loosen a rule that excludes it; ", blame(slice, first)];
    case "superfluous": return ["give the variant the days of what it is made for, correct its formula, or take the row out",
      variant === undefined ? "." : ["; ", blame(slice, `(${variant[5]})`)]];
    case "ambiguous": return "make the two formulas exclude each other, or let the days follow each other.";
    case "uncovered": return "add a variant or widen one; or give the position a last day, or make it optional.";
  }
  return "docs/CHECKING.md says more.";
}

function blame(slice, rule) {
  const shown = rule.length > 80 ? "RULE" : rule;
  return ["the rules to blame are named by ", el("code", null, `partsbook ask ${slice.first} '${shown}' < ${open.draft}.csv`), "."];
}

function rowsOf({ kind, names: [first, ...variants] }) {
  const found = [];
  if (kind === "necessary" || kind === "inadmissible") found.push(rowOf("code", first));
  else if (kind === "superfluous") found.push(rowOf("variant", first));
  else if (kind === "ambiguous" || kind === "uncovered") {
    found.push(rowOf("position", first), ...variants.map((variant) => rowOf("variant", variant)));
    if (kind === "uncovered") found.push(...open.records.flatMap((record, at) => (record.fields[0] === "variant" && record.fields[2] === first ? [at] : [])).slice(0, 6));
  }
  return found.filter((at) => at >= 0);
}

function rowButton(at) {
  return button([`Row ${at + 1}: `, el("bdi", null, cut(open.records[at].fields.join(",")))], () => goTo(at), { class: "row" });
}

function cut(words) {
  const all = [...words];
  return all.length > 80 ? `${all.slice(0, 80).join("")}…` : words;
}

async function drawFault(words) {
  say("The text is no book, or one that can't be checked.", true);
  const row = words[0] === "limit" ? 0 : +words[2];
  const text = { ...open, whole: whole() };
  const { key, words: shown, record } = words[0] === "limit"
    ? { key: `limit ${words[1]}`, words: words[1] === "slices" ? { word: words[2] } : { slice: words[2], word: words[3] }, record: null } : await bookFault(words, text);
  const known = await wholeSentence(key, shown, record?.line);
  return drawPart(words[0] === "limit" ? "It can't be checked" : "The text has a fault", [
    el("p", { class: "verdict no" }, known ?? `The desk says: ${words.join(" ")}`),
    row > 0 && row <= open.records.length ? rowButton(row - 1) : null,
    place.odd.firstChild?.cloneNode(true)]);
}

// The records as a table. A hundred are shown at a time.

function drawTable() {
  const kinds = el("select", { id: "kind", onchange: () => filter({ kind: kinds.value }) }, el("option", { value: "" }, "all records"),
    Object.keys(FIELDS).map((kind) => el("option", { value: kind }, kind)));
  const words = el("input", { id: "words", type: "search", autocomplete: "off", size: 14, onchange: () => filter({ words: words.value }) });
  place.rows = el("tbody");
  place.pager = el("p", { class: "actions" });
  put(place.table, el("h2", null, "Its records"),
    el("div", { class: "fields" }, el("p", null, el("label", { for: "kind" }, "Show"), kinds), el("p", null, el("label", { for: "words" }, "with the text"), words)),
    place.pager,
    el("div", { class: "wide", tabindex: 0, role: "region", "aria-label": "Records, may be scrolled" }, el("table", { class: "records", "aria-label": "Records of the draft" },
      el("thead", null, el("tr", null, el("th", { scope: "col" }, "Row"), el("th", { scope: "col" }, "Record"), el("th", { scope: "col" }, "Fields"), el("th", { scope: "col" }, "Change"))), place.rows)));
  place.kinds = kinds;
  place.words = words;
  drawRows();
}

function filter(change) {
  Object.assign(open, change, { from: 0 });
  drawRows();
}

function shownRows() {
  const words = open.words.toLowerCase();
  return open.records.flatMap((record, at) => ((open.kind === "" || record.fields[0] === open.kind) && (words === "" || record.fields.some((field) => field.toLowerCase().includes(words))) ? [at] : []));
}

function drawRows() {
  const rows = shownRows();
  const page = rows.slice(open.from, open.from + ROWS_AT_ONCE);
  const own = open.owner === caller;
  put(place.rows, page.map((at) => rowPart(at, own)));
  const turn = (step, label, off) => button(label, () => { open.from += step; drawRows(); }, { disabled: off });
  put(place.pager, rows.length === 0 ? "No record is so. " : `${open.from + 1} to ${open.from + page.length} of ${rows.length}. `,
    rows.length > ROWS_AT_ONCE ? [turn(-ROWS_AT_ONCE, "Back", open.from === 0), " ", turn(ROWS_AT_ONCE, "Further", open.from + ROWS_AT_ONCE >= rows.length)] : null,
    own && open.records.length === 0 ? button("Begin a book", () => insert(-1)) : null);
}

// How wide a field is, in letters.
const WIDTHS = { RULE: 24, CODES: 24, TEXT: 32, PART: 13, RANK: 4, QUANTITY: 4, FROM: 5, UNTIL: 5, FIRST: 5, LAST: 5, FORM: 4 };

function rowPart(at, own) {
  const { fields } = open.records[at];
  const names = FIELDS[fields[0]] ?? [];
  const cells = [];
  for (let place_of = 1; place_of <= Math.max(names.length, fields.length - 1); place_of += 1) {
    const label = names[place_of - 1];
    cells.push(el("input", {
      value: fields[place_of] ?? "", placeholder: label ?? "", title: label, readonly: !own, spellcheck: "false", autocomplete: "off", dir: label === "TEXT" ? "auto" : null,
      size: WIDTHS[label] ?? 9, "aria-label": `row ${at + 1}, ${label ?? `field ${place_of + 1}`}`, onchange: (event) => edit(at, place_of, event.target.value),
    }));
  }
  const kind = el("select", { "aria-label": `row ${at + 1}, record`, disabled: !own, onchange: (event) => { edit(at, 0, event.target.value); drawRows(); } },
    [...new Set([...Object.keys(FIELDS), fields[0]])].map((word) => el("option", { value: word, selected: word === fields[0] }, cut(word))));
  return el("tr", { id: `row-${at}` }, el("th", { scope: "row" }, `${at + 1}`), el("td", null, kind), el("td", { class: "cells" }, el("div", null, cells)),
    el("td", { class: "actions" }, own ? [button("+", () => insert(at), { "aria-label": `Add a record after row ${at + 1}` }), button("−", () => remove(at), { "aria-label": `Take row ${at + 1} out` })] : null));
}

function edit(at, place_of, words) {
  const record = open.records[at];
  while (record.fields.length < place_of) record.fields.push("");
  record.fields[place_of] = words;
  const needed = (FIELDS[record.fields[0]] ?? []).length + 1 - (record.fields[0] === "book" ? 1 : 0);
  while (record.fields.length < needed) record.fields.push("");
  record.raw = writeRecord(record.fields);
  changed(at - 1);
}

// A record that ended with the text needs a line end before another one.
function changed(before) {
  const record = open.records[before];
  if (record !== undefined && before < open.records.length - 1 && !/[\r\n]$/.test(record.raw)) record.raw += "\n";
  open.changed = true;
  drawState();
}

function insert(at) {
  const kind = at < 0 ? "book" : open.records[at].fields[0] in FIELDS && open.records[at].fields[0] !== "book" ? open.records[at].fields[0] : "code";
  const fields = [kind, ...FIELDS[kind].map(() => "")];
  open.records.splice(at + 1, 0, { fields, raw: writeRecord(fields) });
  changed(at);
  goTo(at + 1);
}

function remove(at) {
  open.records.splice(at, 1);
  changed(at - 1);
  drawRows();
  say(`Row ${at + 1} is taken out. It isn't saved yet.`);
}

// Shows a row, and goes to its first field.
function goTo(at) {
  if (!shownRows().includes(at)) {
    Object.assign(open, { kind: "", words: "" });
    place.kinds.value = place.words.value = "";
  }
  open.from = Math.floor(shownRows().indexOf(at) / ROWS_AT_ONCE) * ROWS_AT_ONCE;
  drawRows();
  const row = document.getElementById(`row-${at}`);
  row.scrollIntoView({ block: "center" });
  row.querySelector("td input, td select").focus();
}

addEventListener("beforeunload", (event) => {
  if (open.changed) event.preventDefault();
});

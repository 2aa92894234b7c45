// Choosing and placing an order, and the caller's own orders. The state of each code is what the desk says of it.

import { ask, nextNumber, readBooks, readFree, readOrder, readOrders, readWhy, trouble } from "/page/desk.js";
import { Book, readDays } from "/page/book.js";
import { orderFault } from "/page/faults.js";
import { button, days, el, name, put, say, text, working } from "/page/parts.js";

const SHOWN = { ordered: "ordered", excluded: "not possible", comes: "comes by itself", left: "undecided", open: "" };

// What is being ordered, and what the desk said of it last. Where no car has all chosen codes, `gone` are those that clash and those
// that would have to go, and the states shown are for the others. `instead` has for a group with a chosen code what could stand in
// its place, and `known` what the desk said of further questions about this book and day.
const now = {
  books: [], number: null, book: null, day: null, codes: [], gone: [], free: null, why: null, asked: 0, answered: 0, placed: null, wanted: null,
  instead: new Map(), known: new Map(),
};
const texts = new Map();
const options = new Map();
const boxes = new Map();
const marks = new Map();
const place = {};
let table = { byDate: new Map(), byDay: new Map() };

// Begins with the book, day and codes of the address, if it has some.
export async function start(address) {
  const said = await ask("GET", "/page/days.csv");
  if (said.good) table = readDays(said.text);
  frame();
  await loadBooks(address);
}

// The address of the order: `#order/BOOK/DAY/CODE+CODE`. A reload keeps the order, and whoever has the address sees it.
function addressOf() {
  return `#order/${now.number}/${now.day}/${now.codes.join("+")}`;
}

export function showAddress() {
  if (now.number !== null && now.day !== null && !document.getElementById("order").hidden) history.replaceState(null, "", addressOf());
}

export async function open(address) {
  if (`#${["order", ...address].join("/")}` === addressOf()) return;
  const [number, day, codes] = address;
  // A book may have been released meanwhile.
  if (inForce(number) === undefined) await listBooks();
  const wanted = inForce(number);
  if (wanted === undefined) {
    place.book.value = now.number;
    return say(`Book ${/^\d{1,10}$/.test(number) ? number : "of the address"} takes no orders.`, true);
  }
  if (await bookOf(wanted.number) === null) return;
  const all = [...new Set((codes ?? "").split("+").filter((code) => /^[A-Z0-9]{1,8}$/.test(code)))];
  now.codes = all;
  now.day = /^\d{1,5}$/.test(day ?? "") ? +day : null;
  place.book.value = wanted.number;
  await chooseBook(wanted.number);
  const lost = all.filter((code) => !now.codes.includes(code));
  if (lost.length > 0) say(`Book ${number} has no ${lost.join(" and no ")}: the order is without.`, true);
}

function frame() {
  place.book = el("select", { id: "book", onchange: () => chooseBook(+place.book.value) });
  place.day = el("input", { id: "day", inputmode: "numeric", autocomplete: "off", maxlength: 5, size: 6, "aria-describedby": "term", onchange: () => chooseDay(place.day.value) });
  place.date = el("input", { id: "date", type: "date", onchange: () => chooseDate(place.date.value) });
  place.term = el("span", { id: "term", class: "soft" });
  place.search = el("input", { id: "search", type: "search", autocomplete: "off", size: 18, oninput: search });
  place.found = el("span", { class: "soft", role: "status" });
  place.index = el("details", { class: "card", hidden: true, "aria-label": "Index of groups" });
  place.choices = el("div", { class: "choices" });
  place.order = el("div", { class: "card summary", id: "summary", tabindex: -1, "aria-labelledby": "summary-title" });
  place.bar = el("div", { class: "bar" });
  put(document.getElementById("order"),
    el("h1", { id: "order-title" }, "Order a car"),
    el("div", { class: "fields" },
      el("p", null, el("label", { for: "book" }, "Book"), place.book),
      el("p", null, el("label", { for: "day" }, "Production day"), place.day, place.term),
      table.byDate.size > 0 ? el("p", null, el("label", { for: "date" }, "or its date"), place.date) : null,
      el("p", null, el("label", { for: "search" }, "Find codes and texts"), place.search, place.found)),
    el("div", { class: "columns" }, el("div", null, place.index, place.choices), el("aside", { "aria-label": "The order" }, place.order)),
    place.bar);
}

async function listBooks() {
  const answer = await ask("GET", "/books");
  if (!answer.good) return say(trouble(answer), true);
  now.books = readBooks(answer).filter((book) => !book.withdrawn).reverse();
  put(place.book, now.books.map((book) => el("option", { value: book.number }, `${book.title}, ${days(book.first, book.last)} (book ${book.number})`)));
}

async function loadBooks(address) {
  await listBooks();
  if (now.books.length === 0) return put(place.choices, el("p", null, "No book is in force: an engineer has to release one."));
  if (inForce(address[0]) !== undefined) return open(address);
  await chooseBook(now.books[0].number);
  if (address.length > 0) say(`The book of this address takes no orders: this is book ${now.number}.`, true);
}

function inForce(number) {
  return now.books.find((book) => `${book.number}` === number);
}

async function bookOf(number) {
  if (!texts.has(number)) {
    const answer = await ask("GET", `/books/${number}`);
    if (!answer.good) {
      say(trouble(answer), true);
      return null;
    }
    texts.set(number, new Book(answer.text));
  }
  return texts.get(number);
}

async function chooseBook(number) {
  const book = await bookOf(number);
  if (book === null || +place.book.value !== number) return;
  Object.assign(now, { number, book, placed: null });
  now.codes = now.codes.filter((code) => book.codes.includes(code));
  put(place.term, `${book.first} to ${book.last}`);
  await chooseDay(now.day !== null && now.day >= book.first && now.day <= book.last ? now.day : book.first);
}

async function chooseDay(word) {
  if (!/^\d{1,5}$/.test(String(word).trim())) {
    place.day.setAttribute("aria-invalid", "true");
    return say("A production day is a number of one to five digits.", true);
  }
  place.day.removeAttribute("aria-invalid");
  now.day = +word;
  now.placed = null;
  now.known.clear();
  place.day.value = now.day;
  place.date.value = table.byDay.get(now.day) ?? "";
  drawChoices();
  return refresh();
}

function chooseDate(date) {
  const day = table.byDate.get(date);
  if (day === undefined) return say("The table of production days doesn't have this date.", true);
  return chooseDay(day);
}

// Asks the desk about the order as it stands. While answers are on their way nothing further is asked: what was changed meanwhile is
// asked about behind them.
let refreshing = null;
let sayAfter = "";

function refresh(said = "") {
  now.asked += 1;
  sayAfter = said;
  refreshing ??= askUntilDone().finally(() => { refreshing = null; });
  return refreshing;
}

async function askUntilDone() {
  while (now.answered !== now.asked) {
    const asked = now.asked;
    await askAndDraw(asked);
    if (asked === now.asked) now.answered = asked;
  }
  askInstead();
}

async function askAndDraw(asked) {
  const body = { day: now.day, codes: now.codes };
  const [free, why] = await Promise.all([ask("POST", `/books/${now.number}/free`, body), ask("POST", `/books/${now.number}/why`, body)]);
  if (asked !== now.asked) return;
  const bad = [free, why].find((answer) => !answer.good);
  now.instead.clear();
  now.gone = [];
  if (bad) {
    now.free = now.why = null;
    await sayTrouble(bad);
  } else {
    now.free = readFree(free);
    now.why = readWhy(why);
    if (now.free.kind === "none") await keepWhatStays(asked);
    if (asked !== now.asked) return;
    say(sayAfter, false, true);
  }
  showAddress();
  drawStates();
  await drawOrder();
}

async function sayTrouble(answer) {
  const { day, codes, book } = now;
  say((await orderFault(answer, { day, codes, first: book.first, last: book.last })) ?? trouble(answer), true);
}

// Where no car has all chosen codes: what can be chosen beside those that stay.
async function keepWhatStays(asked) {
  const gone = now.codes.filter((code) => now.why.leave.includes(code) || now.why.clash?.codes.includes(code));
  if (gone.length === 0) return;
  const free = await askFree(now.codes.filter((code) => !gone.includes(code)));
  if (asked === now.asked && free !== null) Object.assign(now, { gone, free });
}

// What the desk says of these codes of this book and day; each question is asked once.
async function askFree(codes) {
  const key = [...codes].sort().join("+");
  const { known, number, day } = now;
  if (!known.has(key)) {
    const answer = await ask("POST", `/books/${number}/free`, { day, codes });
    if (!answer.good) return null;
    known.set(key, readFree(answer));
  }
  return known.get(key);
}

// For each group that can be seen and has a chosen code: which of its codes could stand in the place of that one. One question at a
// time, and none after a further choice.
let asking = null;

async function askInstead() {
  const asked = now.asked;
  if (asking === asked || now.answered !== asked) return;
  asking = asked;
  for (let group; asked === now.asked && (group = nextInstead()) !== undefined;) {
    now.instead.set(group.id, new Map());
    const free = await askFree(staying().filter((code) => !group.codes.includes(code)));
    if (asked !== now.asked) return;
    if (free === null) break;
    now.instead.set(group.id, free.states);
    group.codes.forEach(drawState);
  }
  if (asking === asked) asking = null;
}

function nextInstead() {
  if (now.free === null) return undefined;
  return [...boxes.values()].filter((it) => it.seen && !now.instead.has(it.group.id)).map((it) => it.group)
    .find((group) => chosenOf(group).length > 0 && group.codes.some((code) => now.free.states.get(code) === "excluded"));
}

function staying() {
  return now.codes.filter((code) => !now.gone.includes(code));
}

function chosenOf(group) {
  return now.codes.filter((code) => group.codes.includes(code));
}

function change(codes, said) {
  now.codes = codes;
  now.placed = null;
  return refresh(said);
}

// The choices: a box for each group, in two columns of about as many codes, and one for the codes that are in none.

// Which boxes can be seen: the desk is asked about no others what could stand in the place of a chosen code.
const sight = new IntersectionObserver((entries) => {
  for (const { target, isIntersecting } of entries) {
    const box = boxes.get(target.dataset.group);
    if (box !== undefined) box.seen = isIntersecting;
  }
  askInstead();
});

function drawChoices() {
  const { groups, rest } = now.book.groupsOn(now.day);
  options.clear();
  boxes.clear();
  sight.disconnect();
  const halves = [[], []];
  let before = 0;
  for (const group of groups) {
    const title = el("span", null, now.book.groupName(group), el("span", { class: "id" }, group.kind === "one" ? ", one" : ", one or none"));
    const box = choice(group.codes, "", title, group.id);
    boxes.set(group.id, { group, box, seen: false });
    for (const code of group.codes) options.get(code).group = group;
    halves[before * 2 < now.book.codes.length - rest.length ? 0 : 1].push(box);
    before += group.codes.length;
  }
  put(place.choices, halves.map((half) => (half.length > 0 ? el("div", { class: "half" }, half) : null)),
    rest.length > 0 ? choice(rest, "rest", groups.length > 0 ? "Further codes" : "Codes") : null);
  for (const { box } of boxes.values()) sight.observe(box);
  drawIndex(groups);
  search();
}

// The groups as links, with what is decided of each.
function drawIndex(groups) {
  marks.clear();
  place.index.hidden = groups.length < 3;
  put(place.index, el("summary", null, `The ${groups.length} groups`), el("ul", { class: "links index" }, groups.map((group) => {
    const mark = el("span", { class: "id" });
    marks.set(group, mark);
    return el("li", null, groupLink(group), " ", mark);
  })));
}

function drawMarks() {
  for (const [group, mark] of marks) {
    const there = group.all.filter((code) => ["ordered", "forced", "comes"].includes(stateOf(code)));
    put(mark, there.length > 0 ? `✓ ${there.join(", ")}` : "");
  }
}

// Shows the codes whose name or text has all words of the field.
function search() {
  const words = place.search.value.toLowerCase().split(/\s+/).filter((word) => word !== "");
  let found = 0;
  for (const it of options.values()) {
    it.row.hidden = !words.every((word) => it.words.includes(word));
    found += it.row.hidden ? 0 : 1;
  }
  for (const box of place.choices.querySelectorAll("fieldset")) box.hidden = box.querySelector(".option:not([hidden])") === null;
  put(place.found, words.length === 0 ? "" : `${found} of ${options.size} codes`);
}

function choice(codes, kind, title, group = null) {
  return el("fieldset", { class: `card ${kind}`, onkeydown: walk, "data-group": group, id: group === null ? null : `group-${group}`, tabindex: group === null ? null : -1 },
    el("legend", null, title), el("ul", { class: "options" }, codes.map(option)));
}

function option(code) {
  const id = `code-${code}`;
  const box = el("input", { type: "checkbox", id, "aria-describedby": `${id}-state`, onclick: (event) => clicked(event, code) });
  const state = el("span", { class: "state", id: `${id}-state` });
  const reason = el("div", { class: "reason", hidden: true });
  const row = el("li", { class: "option" }, box, el("label", { for: id }, now.book.code(code)), state, reason);
  options.set(code, { box, state, reason, row, words: `${code} ${now.book.textOf("code", code)}`.toLowerCase() });
  return row;
}

// Arrow keys go from code to code.
function walk(event) {
  const step = { ArrowDown: 1, ArrowUp: -1 }[event.key];
  if (step === undefined || event.target.type !== "checkbox") return;
  event.preventDefault();
  const all = [...place.choices.querySelectorAll("input[type=checkbox]")].filter((box) => box.checkVisibility());
  all[all.indexOf(event.target) + step]?.focus();
}

// The state of a code: that of the desk, or `instead` where it could stand in the place of what is chosen of its group.
function stateOf(code) {
  if (now.codes.includes(code)) return "ordered";
  const state = now.free?.states.get(code) ?? "unknown";
  const { group } = options.get(code) ?? {};
  const chosen = group === undefined ? [] : chosenOf(group);
  if (chosen.length === 0) return state;
  // What is chosen of the group clashes, and is not among what the states are for.
  if (chosen.every((other) => now.gone.includes(other))) return state === "excluded" ? state : "instead";
  if (state !== "excluded") return state;
  const without = now.instead.get(group.id)?.get(code);
  return without === undefined ? "unasked" : without === "excluded" ? state : "instead";
}

function wordOf(code, state) {
  if (state === "ordered" && now.gone.includes(code)) return "ordered, clashes";
  if (state === "forced") return now.why.adds.has(code) ? "comes along" : "needed";
  if (state === "instead") return `instead of ${chosenOf(options.get(code).group).join(", ")}`;
  return SHOWN[state] ?? "";
}

function drawStates() {
  for (const code of options.keys()) drawState(code);
  drawMarks();
}

function drawState(code) {
  const it = options.get(code);
  const state = stateOf(code);
  const shown = wordOf(code, state);
  if (it.reason.hasChildNodes()) {
    it.reason.hidden = true;
    put(it.reason);
  }
  it.box.checked = state === "ordered" || state === "forced";
  if (it.shown === `${state} ${shown}`) return;
  it.shown = `${state} ${shown}`;
  it.row.dataset.state = state;
  it.row.classList.toggle("clashes", state === "ordered" && now.gone.includes(code));
  it.box.setAttribute("aria-disabled", state === "forced" || state === "excluded" ? "true" : "false");
  put(it.state, shown);
}

function clicked(event, code) {
  const state = stateOf(code);
  if (state === "ordered") return change(now.codes.filter((other) => other !== code), `${code} is left out.`);
  if (state === "forced" || state === "excluded" || state === "unasked") {
    event.preventDefault();
    return state === "forced" ? showForced(code) : showExcluded(code);
  }
  const { group } = options.get(code);
  const chosen = group === undefined ? [] : chosenOf(group);
  return chosen.length > 0 ? exchange(code, chosen) : change([...now.codes, code], `${code} is ordered.`);
}

// A code in the place of others.
function exchange(code, others) {
  const at = now.codes.indexOf(others[0]);
  const kept = now.codes.filter((other) => !others.includes(other));
  return change([...kept.slice(0, at), code, ...kept.slice(at)], `${code} is ordered in place of ${others.join(" and ")}.`);
}

function showReason(code, ...children) {
  for (const [other, { reason }] of options) {
    reason.hidden = other !== code;
    if (other === code || reason.hasChildNodes()) put(reason, other === code ? children : []);
  }
  say(options.get(code).reason.textContent, false, true);
}

function showForced(code) {
  const rule = now.why.adds.get(code);
  if (rule !== undefined) return showReason(code, el("p", null, "It comes along ", now.book.rule(rule, true), "."));
  return showReason(code,
    now.gone.length > 0 ? el("p", null, "Each car with the codes that don't clash has it.")
      : el("p", null, "Every car that is left has it, and it doesn't come by itself. Without it: ", outcome(now.why.outcome), "."),
    button(`Order ${code}`, () => take([...now.codes, code], `${code} is ordered.`, code)));
}

// The desk is asked with this code first, so that it says which of the others have to go.
async function showExcluded(code) {
  const answer = await ask("POST", `/books/${now.number}/why`, { day: now.day, codes: [code, ...now.codes] });
  if (!answer.good) return say(trouble(answer), true);
  const why = readWhy(answer);
  const kept = now.codes.filter((other) => !why.leave.includes(other));
  const { group } = options.get(code);
  const possible = !why.leave.includes(code) && !why.noOrder && !why.undecided && why.leave.length > 0;
  if (possible && group !== undefined && why.leave.every((other) => group.codes.includes(other))) return exchange(code, why.leave);
  return showReason(code, why.undecided ? el("p", null, "The desk couldn't decide why.") : clash(why, code),
    possible ? el("p", null, "With it, ", list(why.leave, "and"), why.leave.length === 1 ? " has to go." : " have to go.") : null,
    possible ? button(`Order ${code} without ${why.leave.join(", ")}`, () => take([...kept, code], `${code} is ordered, without ${why.leave.join(" and ")}.`, code)) : null);
}

// A change by a button that is gone afterwards: the focus goes back to the code.
async function take(codes, said, code) {
  options.get(code)?.box.focus();
  await change(codes, said);
}

function list(codes, word) {
  return codes.map((code, at) => [at === 0 ? null : at === codes.length - 1 ? ` ${word} ` : ", ", now.book.code(code)]);
}

// What can't be together, and by which rules.
function clash(why, asked = null) {
  if (why.noOrder) return el("p", null, "No car at all can be ordered on this day.");
  if (why.clash === null) return null;
  const others = why.clash.codes.filter((code) => code !== asked);
  const together = asked === null ? [list(why.clash.codes, "and"), why.clash.codes.length === 1 ? " can't be had:" : " don't go together:"]
    : others.length === 0 ? "It can't be had on this day:" : ["It doesn't go with ", list(others, "and"), ":"];
  return [el("p", null, together), el("ul", { class: "rules" }, why.clash.entries.map((rule) => el("li", null, now.book.rule(rule))))];
}

function outcome(words) {
  if (words[0] === "refused") return ["the order is refused, since ", now.book.rule(words[1])];
  if (words[0] === "unfit") return [`the book gives ${words[2]} parts at `, name(words[1])];
  return "the order is accepted";
}

// The order: what is in it, what comes by itself, what the desk says, placing.

async function drawOrder() {
  const number = place.number?.value ?? "";
  const asked = now.asked;
  const last = now.why?.outcome[0] === "accepted" && now.placed === null ? await placing(number) : now.placed;
  if (asked !== now.asked) return;
  const open = stillToChoose();
  place.order.classList.toggle("placed-order", now.placed !== null);
  put(place.order, el("h2", { id: "summary-title" }, "Your order"), now.placed === null ? bookAndDay(now.number, now.book, now.day, "print") : null, codesPart(), now.placed === null ? [verdict(open), openPart(open)] : null, last, addedPart());
  drawBar(open);
}

function codesPart() {
  if (now.codes.length === 0) return el("p", { class: "soft" }, "Nothing is chosen yet.");
  return el("ul", { class: "chosen" }, now.codes.map((code) => el("li", now.gone.includes(code) ? { class: "clashes" } : null,
    el("span", null, now.book.code(code), now.gone.includes(code) ? el("strong", { class: "mark" }, now.why.clash?.codes.includes(code) ? " clashes" : " would have to go") : null),
    button("×", () => dropped(code), { class: "close", "aria-label": `Leave ${code} out` }))));
}

async function dropped(code) {
  await change(now.codes.filter((other) => other !== code), `${code} is left out.`);
  place.order.focus();
}

function addedPart() {
  if (now.why === null || now.why.adds.size === 0) return null;
  return [el("h3", null, "Comes by itself"),
    el("ul", { class: "chosen" }, [...now.why.adds].map(([code, rule]) => el("li", null, el("span", null, now.book.code(code), el("br"), el("small", { class: "soft" }, now.book.rule(rule, true))))))];
}

// The groups of which a car has exactly one code, and of which none is ordered, needed or comes by itself.
function stillToChoose() {
  if (now.free === null || now.free.states.size === 0 || now.why.outcome[0] === "accepted") return [];
  return [...boxes.values()].map((it) => it.group).filter((group) => group.kind === "one" && !group.all.some((code) => ["ordered", "forced", "comes"].includes(stateOf(code))));
}

function openPart(open) {
  if (open.length === 0) return null;
  const links = el("ul", { class: "links" }, open.map((group) => el("li", null, groupLink(group))));
  return [el("h3", { id: "still" }, "Still to choose"), links];
}

function groupLink(group) {
  return el("a", { href: `#group-${group.id}`, onclick: (event) => { event.preventDefault(); goToGroup(group); } }, now.book.groupName(group));
}

function goToGroup({ id }) {
  if (place.search.value !== "") {
    place.search.value = "";
    search();
  }
  const { box } = boxes.get(id);
  box.scrollIntoView({ block: "center" });
  (box.querySelector("li[data-state=ordered] input") ?? box.querySelector("input")).focus({ preventScroll: true });
}

// Some codes; more than four are folded.
function folded(codes) {
  return codes.length > 4 ? el("details", { "aria-label": "Proposed codes" }, el("summary", null, `${codes.length} codes`), list(codes, "and")) : list(codes, "and");
}

function verdict(open) {
  const why = now.why;
  if (why === null) return null;
  if (why.outcome[0] === "accepted") return el("div", { class: "verdict ok" }, el("p", null, el("strong", null, "It can be placed."), " The desk accepts it as it stands."));
  if (now.codes.length === 0 && !why.noOrder) return beginning(why);
  const kept = now.codes.filter((code) => !why.leave.includes(code));
  const mend = why.leave.length > 0 || why.add.length > 0;
  // What is only not chosen yet is no trouble.
  const waits = now.gone.length === 0 && open.some((group) => group.id === why.outcome[1]);
  return el("div", { class: `verdict ${waits ? "waits" : "no"}` },
    el("p", null, el("strong", null, "Not yet: "), outcome(why.outcome), "."),
    clash(why),
    now.gone.length === 0 ? null : el("p", null, staying().length === 0 ? "The choices are shown as if nothing were chosen." : ["The choices are shown for ", list(staying(), "and"), "."]),
    why.undecided ? el("p", null, "The desk couldn't decide how it would be accepted.") : null,
    why.leave.length > 0 ? el("div", null, "Leave out ", folded(why.leave), ".") : null,
    why.add.length > 0 ? el("div", null, why.leave.length > 0 ? "Then add " : "It would be accepted with ", folded(why.add), "; others may do as well.") : null,
    mend ? proposal(mendLabel(why), [...kept, ...why.add], "The order is changed as the desk says.") : null);
}

// Before the first choice: a car that can be ordered, to begin with.
function beginning(why) {
  return el("div", { class: "verdict waits" }, el("p", null, "Choose a code: what follows from it is shown at once."),
    why.add.length === 0 ? null : [el("div", null, "Or begin with a car that can be ordered, and change it: ", folded(why.add), "."),
      proposal("Begin with this car", why.add, "The order has the codes of a car that can be ordered.")]);
}

function proposal(label, codes, said) {
  return button(label, async () => {
    await change(codes, said);
    place.order.focus();
  });
}

function mendLabel(why) {
  const some = (codes) => (codes.length > 4 ? `these ${codes.length} codes` : codes.join(", "));
  const leave = why.leave.length > 0 ? `leave out ${some(why.leave)}` : "";
  const add = why.add.length > 0 ? `add ${some(why.add)}` : "";
  const whole = [leave, add].filter((part) => part !== "").join(" and ");
  return whole[0].toUpperCase() + whole.slice(1);
}

async function placing(number) {
  now.wanted ??= await nextNumber();
  place.number = el("input", { id: "number", inputmode: "numeric", autocomplete: "off", maxlength: 9, size: 10, value: number || now.wanted || null });
  const place_it = button("Place the order", () => working(place_it, "The desk places it", placeOrder), { class: "main" });
  return el("div", { class: "placing" }, el("p", null, el("label", { for: "number" }, "Your number for it"), place.number), place_it);
}

async function placeOrder() {
  const number = place.number.value.trim();
  if (!/^[1-9]\d{0,8}$/.test(number)) return say("A number has one to nine digits, and doesn't begin with 0.", true);
  const asked = now.asked;
  const answer = await ask("PUT", `/orders/${number}`, { book: now.number, day: now.day, codes: now.codes });
  if (answer.status === 409) {
    now.wanted = await nextNumber();
    place.number.value = now.wanted ?? "";
    const next = now.wanted === null ? "Take another number." : `${now.wanted} is the next free one: it is in the field now.`;
    return say(`Under number ${number} another order of yours is kept, of book ${answer.words[2]}. ${next}`, true);
  }
  if (!answer.good) return sayTrouble(answer);
  if (now.wanted !== null) now.wanted = Math.max(now.wanted, +number + 1);
  if (asked !== now.asked) return say(`Order ${number} is kept, as it was before you changed it here.`);
  now.placed = el("div", { class: "verdict ok placed" }, el("h3", { tabindex: -1 }, `Order ${number} is kept`), bookAndDay(now.number, now.book, now.day),
    answer.status === 200 ? el("p", null, "It was placed before, and is kept once.") : null, shown(readOrder(answer), now.book),
    button("Order another one like it", () => change(now.codes, "")), " ", button("Begin anew", () => change([], "")));
  say("");
  place.number = null;
  await drawOrder();
  now.placed.querySelector("h3").focus();
}

function bookAndDay(number, book, day, kind = null) {
  return el("p", { class: kind }, `Book ${number}${book === null ? "" : ` (${book.title})`}, day ${day}${table.byDay.has(day) ? `, ${table.byDay.get(day)}` : ""}`);
}

// The parts and the codes of an order that is kept.
function shown(order, book) {
  const modules = new Map();
  for (const part of order.parts) modules.set(part.module, [...(modules.get(part.module) ?? []), part]);
  return [
    order.parts.length === 0 ? el("p", null, "It takes no parts.") : el("div", { class: "wide" }, el("table", { class: "partslist" }, el("caption", null, "Parts"),
      el("thead", null, el("tr", null, ["Position", "Part", "Quantity"].map((word) => el("th", { scope: "col" }, word)))),
      [...modules].map(([module, parts]) => el("tbody", null,
        el("tr", null, el("th", { colspan: 3, scope: "rowgroup" }, module === "-" ? "Without a module" : [name(module), " ", text(book?.textOf("module", module) ?? "")])),
        parts.map((part) => el("tr", null, el("td", null, name(part.position)), el("td", null, name(part.part)), el("td", { class: "number" }, part.quantity))))))),
    el("h3", null, "Its codes"),
    el("ul", { class: "chosen" }, order.codes.map((code) => el("li", null, book ? book.code(code) : name(code)))),
  ];
}

// On a narrow window: what the order comes to, at the foot of it.
function drawBar(open) {
  const [look, said] = now.placed !== null ? ["ok", "Placed"] : now.why?.outcome[0] === "accepted" ? ["ok", "Can be placed"]
    : now.codes.length === 0 ? ["soft", "Nothing is chosen"] : now.gone.length === 0 && open.length > 0 ? ["soft", `Still to choose: ${open.length}`] : ["no", "Not yet"];
  put(place.bar, el("span", { class: look }, said),
    el("span", { class: "soft" }, now.codes.length === 1 ? "1 code" : `${now.codes.length} codes`),
    button("To the order", () => {
      place.order.scrollIntoView({ block: "start" });
      place.order.focus({ preventScroll: true });
    }));
}

// The caller's own orders.

const own = { last: 0, rows: null, more: null, one: null };

export async function showOrders() {
  own.rows = el("tbody");
  own.more = button("Further orders", () => working(own.more, "Reading", listOrders));
  own.one = el("div", { class: "card", tabindex: -1, hidden: true });
  own.last = 0;
  const asked = el("input", { id: "asked", inputmode: "numeric", autocomplete: "off", maxlength: 9, size: 10 });
  put(document.getElementById("orders"), el("h1", { id: "orders-title" }, "My orders"),
    el("form", { class: "fields", onsubmit: (event) => { event.preventDefault(); openOrder(asked.value.trim()); } },
      el("p", null, el("label", { for: "asked" }, "Order number"), asked), el("p", null, el("button", { type: "submit" }, "Show it"))),
    el("div", { class: "columns" },
      el("div", { class: "wide" }, el("table", { class: "list" }, el("caption", null, "Orders by their numbers"),
        el("thead", null, el("tr", null, ["Number", "Book", "Day", ""].map((word) => el("th", { scope: "col" }, word)))), own.rows), own.more),
      el("aside", { "aria-label": "One order" }, own.one)));
  await listOrders();
}

async function listOrders() {
  const answer = await ask("GET", own.last === 0 ? "/orders" : `/orders/after/${own.last}`);
  if (!answer.good) return say(trouble(answer), true);
  const { orders, more } = readOrders(answer);
  own.last = orders.at(-1)?.number ?? own.last;
  own.rows.append(...orders.map((order) => el("tr", null, el("td", { class: "number" }, `${order.number}`), el("td", { class: "number" }, `${order.book}`),
    el("td", { class: "number" }, `${order.day}`), el("td", null, button("Show", () => openOrder(order.number), { "aria-label": `Show order ${order.number}` })))));
  own.more.hidden = !more;
  if (own.rows.rows.length === 0) put(own.rows, el("tr", null, el("td", { colspan: 4, class: "soft" }, "You have placed none.")));
}

async function openOrder(number) {
  if (!/^[1-9]\d{0,8}$/.test(String(number))) return say("A number has one to nine digits, and doesn't begin with 0.", true);
  const answer = await ask("GET", `/orders/${number}`);
  if (!answer.good) return say(trouble(answer), true);
  const order = readOrder(answer);
  const book = await bookOf(order.book);
  say("");
  own.one.hidden = false;
  put(own.one, el("h2", null, `Order ${number}`),
    bookAndDay(order.book, book, order.day), shown(order, book));
  own.one.focus();
}

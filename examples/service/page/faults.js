// What is wrong with a text, in sentences. They are those of tools/faults.json, of which faults.json here is a copy; which one fits,
// and the words in it, follow from the desk's answer and the records that it speaks of.

import { ask } from "/page/desk.js";
import { FIELDS } from "/page/book.js";
import { el, name } from "/page/parts.js";

let table = null;

async function load() {
  const answer = await ask("GET", "/page/faults.json");
  return answer.good ? JSON.parse(answer.text) : {};
}

// The sentence of this key with these words in it, as what an element takes; or null where there is none. What stands between
// backticks is a word of a book; a word may be a sentence itself.
export async function sentence(key, words = {}) {
  table ??= await load();
  if (table[key] === undefined) return null;
  return table[key].split("`").flatMap((piece, at) => (at % 2 === 1 ? name(shorten(filled(piece, words))) : pieces(piece, words)));
}

function pieces(piece, words) {
  return piece.split(/(\{\w+\})/).flatMap((part) => {
    const word = words[part.slice(1, -1)];
    return Array.isArray(word) ? word : filled(part, words);
  });
}

function filled(piece, words) {
  return piece.replace(/\{(\w+)\}/g, (whole, key) => (words[key] === undefined ? whole : `${words[key]}`));
}

function shorten(words) {
  const all = [...words];
  return all.length > 160 ? `${all.slice(0, 157).join("")}...` : words;
}

// `book fault ROW KIND ..`: the key of the sentence, its words, and the record that it is about.
export async function bookFault(said, text) {
  const [row, kind, more, at] = said.slice(2).map((word) => (/^\d+$/.test(word) ? +word : word));
  const record = text.records[row - 1] ?? null;
  if (kind === 2) return { key: headKey(text.head), words: {}, record: null };
  if (kind === 3) return { ...bookKey(text), record: null };
  if (record === null) return { key: `book ${kind}`, words: {}, record };
  const find = { 5: kindKey, 6: countKey, 7: nameKey, 8: numberKey, 9: daysKey, 10: takenKey, 11: unknownKey };
  if (kind === 12) return { ...(await ruleKey(record, more, at)), record };
  if (kind === 13) {
    const [word, most] = MOST[more] ?? [];
    return { key: more === "choices" ? "book 13 choices" : "book 13", words: { word, most }, record };
  }
  return { key: `book ${kind}`, words: {}, ...find[kind]?.(record.fields, text.records), record };
}

// What a book may have at most.
const MOST = {
  codes: ["codes", "2,000"], supplements: ["supplementing rules", "5,000"], constructs: ["constructibility rules", "10,000"], groups: ["groups", "1,000"],
  modules: ["modules", "1,000"], positions: ["positions", "5,000"], variants: ["variants", "20,000"],
};

// A text that is no UTF-8, by its first bytes.
function headKey(head) {
  if (head.startsWith("PK\u0003\u0004")) return "book 2 sheet";
  return head.startsWith("\u00ff\u00fe") || head.startsWith("\u00fe\u00ff") ? "book 3 utf16" : "book 2";
}

// A text without a `book` record at its begin.
function bookKey({ records, whole }) {
  const [first] = records;
  if (first === undefined) return { key: "book 3 empty", words: {} };
  const begin = whole.replace(/^\ufeff/, "").split(/[\r\n]/).find((line) => line !== "") ?? "";
  const word = first.fields[0];
  if (/^"?book"?;/i.test(begin)) return { key: "book 3 semicolons", words: {} };
  if (/^"?book"?\t/i.test(begin)) return { key: "book 3 tabs", words: {} };
  if (begin.includes("partsbook certificate")) return { key: "book 3 certificate", words: {} };
  if (word.trim().toLowerCase() === "book") return { key: "book 3 letters", words: { word } };
  return { key: records.some((record) => record.fields[0] === "book") ? "book 3 later" : "book 3", words: { word: begin } };
}

function kindKey([word]) {
  const right = word.trim().toLowerCase();
  if (word === "group") return { key: "book 5 group" };
  return right in FIELDS ? { key: "book 5 letters", words: { word, right } } : { words: { word } };
}

function countKey(fields) {
  const [kind] = fields;
  const needed = kind === "book" ? 4 : FIELDS[kind].length + 1;
  const words = { kind, needed, found: fields.length };
  return { key: fields.length > needed ? (kind === "book" ? "book 6 book" : "book 6 more") : kind === "book" ? "book 6 book" : "book 6", words };
}

// The fields of a record with what each of them is.
function named(fields) {
  return (FIELDS[fields[0]] ?? []).map((label, at) => [label, fields[at + 1] ?? ""]);
}

const NAME = /^[A-Z0-9]{1,8}$/;
const DAY_NAMES = ["FIRST", "LAST", "FROM", "UNTIL"];

function nameKey(fields) {
  for (const [label, word] of named(fields)) {
    const words = { word };
    if (["TEXT", "RULE", "RANK", "QUANTITY", "FORM", ...DAY_NAMES].includes(label)) continue;
    if (label === "KIND" || label === "GROUPKIND") {
      if (!(label === "KIND" ? ["mandatory", "optional"] : ["one", "most"]).includes(word)) return { key: `book 7 ${label.toLowerCase()}`, words };
    } else if (label === "CODES") {
      const codes = word.split("/");
      if (codes.length < 2 || codes.length > 64 || new Set(codes).size < codes.length || !codes.every((code) => NAME.test(code) && !isWord(code))) return { key: "book 7 codes", words };
    } else if ((label === "MODULE" && word === "") || (label === "CODE" && fields[0] === "construct" && word === "*")) continue;
    else if (label === "PART" ? /^[A-Z0-9]{1,16}$/.test(word) : NAME.test(word)) {
      if (label === "CODE" && isWord(word)) return { key: "book 7 code", words };
    } else if (word === "") return { key: "book 7 empty" };
    else if (/^[A-Za-z0-9]{1,8}$/.test(word)) return { key: "book 7 letters", words };
    else return { key: label === "PART" ? "book 7 part" : "book 7", words };
  }
  return {};
}

function isWord(code) {
  return code === "TRUE" || code === "FALSE";
}

function numberKey(fields) {
  const ranges = { RANK: [0, 9999, "rank"], QUANTITY: [1, 999, "quantity"], FORM: [1, 2, "form"] };
  for (const [label, word] of named(fields)) {
    const [least, most, what] = DAY_NAMES.includes(label) ? [1, 99999, "day"] : ranges[label] ?? [0, 0, null];
    if (what === null || (word === "" && ["FROM", "UNTIL", "FORM"].includes(label))) continue;
    if (!/^\d{1,5}$/.test(word) || +word < least || +word > most) return { key: `book 8 ${what}`, words: { word } };
  }
  return {};
}

function daysKey(fields) {
  const of = new Map(named(fields));
  return { words: { word: of.get("FIRST") ?? of.get("FROM"), last: of.get("LAST") ?? of.get("UNTIL") } };
}

function shelf(kind) {
  return ["supplement", "construct", "group"].includes(kind) ? "rule" : kind;
}

function takenKey([kind, word], records) {
  const earlier = records.find(({ fields }) => shelf(fields[0]) === shelf(kind) && fields[1] === word);
  return { key: shelf(kind) === "rule" ? "book 10 rule" : "book 10", words: { word, line: earlier?.line } };
}

function unknownKey(fields, records) {
  const of = new Map(named(fields));
  const there = (kind, word) => records.some((record) => record.fields[0] === kind && record.fields[1] === word);
  if (fields[0] === "position") return { key: "book 11 module", words: { word: of.get("MODULE") } };
  if (fields[0] === "variant") return { key: "book 11 position", words: { word: of.get("POSITION") } };
  const word = (fields[0] === "group" ? of.get("CODES").split("/") : [of.get("CODE")]).find((code) => code !== "*" && !there("code", code));
  return word === undefined ? {} : { key: "book 11 code", words: { word } };
}

// A rule that is none: where in it, and the word that stands there.
async function ruleKey({ fields }, number, at) {
  const rule = new Map(named(fields)).get("RULE") ?? "";
  if (number === 1) return { key: "book 12", words: { rule, what: await sentence("rule 1") } };
  const rest = rule.slice(at);
  const word = /^[A-Za-z0-9]+/.exec(rest)?.[0] ?? [...rest][0] ?? "";
  const open = rule.split("(").length > rule.split(")").length;
  const key = number !== 4 || (rest !== "" && rest[0] !== ";") ? `rule ${number}` : open && /[A-Z0-9)]\s*$/.test(rule.slice(0, at)) ? "rule 4 bracket" : "rule 4 end";
  return { key: rest === "" ? "book 12 end" : "book 12 at", words: { rule, byte: at + 1, what: await sentence(key, { word }) } };
}

// What is odd about the quotes of a text: [key, words] of each, in the lines' order.
export function oddQuotes(records) {
  return records.flatMap((record) => record.quotes).map(({ kind, first, last }) => [kind === "open" && first === last ? "quote open one" : `${kind === "text" ? "text lines" : `quote ${kind}`}`, { first, last }]);
}

// A sentence as it stands by itself, with its line where it has one.
export async function whole(key, words, line = null) {
  const said = await sentence(key, words);
  if (said === null) return null;
  if (line === null && typeof said[0] === "string") said[0] = said[0].charAt(0).toUpperCase() + said[0].slice(1);
  return el("span", null, line === null ? null : `Line ${line}: `, said, ".");
}

// `order fault KIND PLACE` about such an order, or null where the answer says something else.
export async function orderFault(answer, { day, codes, first, last }) {
  const [order, fault, kind, place] = answer.words;
  if (order !== "order" || fault !== "fault") return null;
  return whole(`order ${kind}`, kind === "1" ? { word: day, first, last } : { word: codes[place - 1] });
}

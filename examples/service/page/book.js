// The text of a book as records, for showing: docs/BOOK-FORMAT.md has the format. What follows from a book the desk says.

import { el, name, text } from "/page/parts.js";

// The fields of each record behind its first one.
export const FIELDS = {
  book: ["NAME", "FIRST", "LAST", "FORM"],
  code: ["CODE", "TEXT"],
  supplement: ["ID", "RANK", "CODE", "RULE", "FROM", "UNTIL"],
  construct: ["ID", "CODE", "RULE", "FROM", "UNTIL"],
  group: ["ID", "GROUPKIND", "CODES", "FROM", "UNTIL"],
  module: ["ID", "TEXT"],
  position: ["ID", "MODULE", "KIND", "FROM", "UNTIL"],
  variant: ["ID", "POSITION", "PART", "QUANTITY", "RULE", "FROM", "UNTIL"],
};

// The field that begins at a place, where it ends (at a comma, at a line end, or at the end of the text), and whether a quote is
// never closed.
function readField(whole, at) {
  if (whole[at] !== '"') {
    const end = endOfBare(whole, at);
    return [whole.slice(at, end), end, false];
  }
  let field = "";
  for (at += 1; ;) {
    const quote = whole.indexOf('"', at);
    if (quote < 0) return [field + whole.slice(at), whole.length, true];
    field += whole.slice(at, quote);
    if (whole[quote + 1] === '"') {
      field += '"';
      at = quote + 2;
      continue;
    }
    const end = endOfBare(whole, quote + 1);
    return [field + whole.slice(quote + 1, end), end, false];
  }
}

function endOfBare(whole, at) {
  const bare = /[^,\r\n]*/y;
  bare.lastIndex = at;
  bare.test(whole);
  return bare.lastIndex;
}

function lineEnds(words) {
  return words.match(/\r\n|\r|\n/g)?.length ?? 0;
}

// What is odd about a quoted field, if anything: it is never closed, or goes over lines, some of which would be records.
function oddQuote(field, line, open) {
  const lines = lineEnds(field.replace(/(\r\n|\r|\n)$/, ""));
  if (!open && lineEnds(field) === 0) return null;
  const lost = Object.keys(FIELDS).some((kind) => new RegExp(`[\\r\\n]${kind},`).test(field));
  return { kind: open ? "open" : lost ? "lines" : "text", first: line, last: line + (open ? lines : lineEnds(field)) };
}

// The records, each with its fields, the very text that it has in the book, the line on which it begins and what is odd about its
// quotes; and what stands before the first one.
export function readRecords(whole) {
  const records = [];
  let at = whole[0] === "\ufeff" ? 1 : 0;
  let before = null;
  let line = 1;
  while (at < whole.length) {
    const begin = at;
    const fields = [];
    const quotes = [];
    let more = !"\r\n".includes(whole[at]);
    if (more) before ??= begin;
    while (more) {
      const [field, end, open] = readField(whole, at);
      fields.push(field);
      if (whole[at] === '"') {
        const odd = oddQuote(field, line + lineEnds(whole.slice(begin, at)), open);
        if (odd !== null) quotes.push(odd);
      }
      more = whole[end] === ",";
      at = more ? end + 1 : end;
    }
    if (whole[at] === "\r" && whole[at + 1] === "\n") at += 2;
    else if (at < whole.length) at += 1;
    if (fields.length > 0) records.push({ fields, raw: whole.slice(begin, at), line, quotes });
    else if (records.length > 0) records.at(-1).raw += whole.slice(begin, at);
    line += lineEnds(whole.slice(begin, at));
  }
  return { records, before: whole.slice(0, before ?? whole.length) };
}

// A record as a line of a book.
export function writeRecord(fields) {
  const line = fields.map((field) => (/[",\r\n]/.test(field) ? `"${field.replaceAll('"', '""')}"` : field)).join(",");
  return `${line === "" ? '""' : line}\n`;
}

export class Book {
  constructor(whole) {
    this.records = readRecords(whole).records.map((record) => record.fields);
    this.of = new Map();
    for (const fields of this.records) {
      const key = `${this.shelf(fields[0])} ${fields[1]}`;
      if (!this.of.has(key)) this.of.set(key, fields);
    }
    const [, title, first, last] = this.records[0] ?? [];
    Object.assign(this, { title, first: +first, last: +last });
    this.names = new Map();
    this.codes = this.records.filter((fields) => fields[0] === "code").map((fields) => fields[1]);
  }

  // Rules of all kinds share their names.
  shelf(kind) {
    return kind === "supplement" || kind === "construct" || kind === "group" ? "rule" : kind;
  }

  textOf(kind, id) {
    return this.of.get(`${kind} ${id}`)?.[2] ?? "";
  }

  field(fields, wanted) {
    return fields[FIELDS[fields[0]].indexOf(wanted) + 1] ?? "";
  }

  // The groups that count on a day, each with those of its codes that no earlier one has, and with all; and the codes that are in none.
  groupsOn(day) {
    const seen = new Set();
    const groups = [];
    for (const fields of this.records) {
      if (fields[0] !== "group") continue;
      const from = this.field(fields, "FROM");
      const until = this.field(fields, "UNTIL");
      if ((from !== "" && day < +from) || (until !== "" && day > +until)) continue;
      const codes = fields[3].split("/").filter((code) => !seen.has(code));
      codes.forEach((code) => seen.add(code));
      if (codes.length > 0) groups.push({ id: fields[1], kind: fields[2], codes, all: fields[3].split("/") });
    }
    return { groups, rest: this.codes.filter((code) => !seen.has(code)) };
  }

  // A code with its text.
  code(code) {
    const said = this.textOf("code", code);
    return el("span", { class: "code" }, name(code), said === "" ? null : " ", said === "" ? null : text(said));
  }

  // A rule in words; or of a supplementing rule only when it adds its code.
  rule(id, when = false) {
    const fields = this.of.get(`rule ${id}`);
    if (fields === undefined) return el("span", null, name(id));
    return el("span", { class: "rule" }, when ? whenWords(this.field(fields, "RULE")) : this.ruleWords(fields), " ",
      el("span", { class: "id" }, `(rule ${id}${this.ruleDays(fields)})`));
  }

  ruleWords(fields) {
    const formula = this.field(fields, "RULE");
    if (fields[0] === "group") return this.groupWords(fields[2], fields[3].split("/"));
    if (fields[0] === "supplement") return `${fields[3]} comes along ${whenWords(formula)}`;
    if (/^\s*FALSE\s*;?\s*$/.test(formula)) return fields[2] === "*" ? "nothing can be ordered" : `${fields[2]} can't be ordered`;
    return fields[2] === "*" ? `every car needs ${inWords(formula)}` : `${fields[2]} needs ${inWords(formula)}`;
  }

  groupWords(kind, codes) {
    const some = codes.length > 8 ? [...codes.slice(0, 8), "…"] : codes;
    return [kind === "one" ? "exactly one of " : "at most one of ", some.map((code, at) => [at > 0 ? ", " : null, code === "…" ? code : this.code(code)]),
      kind === "one" ? " has to be chosen" : " can be chosen"];
  }

  // A name for a group, which the format has none for: what the texts of its codes share, or else the first of them.
  groupName({ id, all }) {
    if (!this.names.has(id)) {
      const said = all.map((code) => this.textOf("code", code)).filter((words) => words !== "");
      const heads = all.map((code) => this.textOf("code", code).split(/[,(]/)[0].trim().slice(0, 40) || code);
      this.names.set(id, sharedWords(said) || `${heads.slice(0, 2).join(", ")}${heads.length > 2 ? ", …" : ""}`);
    }
    return el("span", null, text(this.names.get(id)), " ", el("span", { class: "id" }, id));
  }

  ruleDays(fields) {
    const from = this.field(fields, "FROM");
    const until = this.field(fields, "UNTIL");
    return `${from === "" ? "" : `, from day ${+from}`}${until === "" ? "" : `, until day ${+until}`}`;
  }
}

function whenWords(formula) {
  return /^\s*TRUE\s*;?\s*$/.test(formula) ? "always" : `with ${inWords(formula)}`;
}

// The longest run of words that all of these texts have, or else more than half of them.
function sharedWords(texts) {
  const words = texts.map((said) => (said.match(/[\p{L}\p{N}][\p{L}\p{N}'’.-]*/gu) ?? []).slice(0, 8));
  const joined = words.map((some) => ` ${some.join(" ").toLowerCase()} `);
  for (const least of [texts.length, Math.floor(texts.length / 2) + 1]) {
    let best = [];
    for (const some of words.slice(0, texts.length - least + 1)) {
      for (let from = 0; from < some.length; from += 1) {
        for (let until = from + best.length + 1; until <= some.length; until += 1) {
          const run = some.slice(from, until);
          const wanted = ` ${run.join(" ").toLowerCase()} `;
          if (least < 2 || joined.filter((other) => other.includes(wanted)).length < least) break;
          if (/\p{L}{3}/u.test(run[0]) && /\p{L}{3}/u.test(run.at(-1))) best = run;
        }
      }
    }
    if (best.length > 0) return best.join(" ");
  }
  return "";
}

// A formula with words for its signs; brackets stay.
function inWords(formula) {
  return formula.replace(/;\s*$/, "").replaceAll("/", " or ").replaceAll("+", " and ").replaceAll("-", "no ").replace(/\s+/g, " ").trim();
}

// A date as 2027-02-09, or as 09.02.2027, in the form of a field for dates; or else null.
function dateOf(words) {
  if (/^\d{4}-\d\d-\d\d$/.test(words)) return words;
  const [, day, month, year] = /^(\d{1,2})\.(\d{1,2})\.(\d{4})$/.exec(words) ?? [];
  return year === undefined ? null : `${year}-${month.padStart(2, "0")}-${day.padStart(2, "0")}`;
}

// A table of production days with rows DATE,DAY, as tools/from-sheet reads it.
export function readDays(whole) {
  const byDate = new Map();
  const byDay = new Map();
  for (const { fields } of readRecords(whole).records) {
    const date = dateOf(fields[0].trim());
    if (date === null || !/^\s*\d{1,5}\s*$/.test(fields[1] ?? "")) continue;
    byDate.set(date, +fields[1]);
    if (!byDay.has(+fields[1])) byDay.set(+fields[1], date);
  }
  return { byDate, byDay };
}

// Requests to the desk, and what its answers say (docs/HTTP.md). Nothing is decided here: each state is a word of an answer.

export class Answer {
  constructor(status, text) {
    this.status = status;
    this.text = text;
    this.lines = text.split("\n").map((line) => line.replace(/\r$/, "")).filter((line) => line !== "");
    this.words = (this.lines[0] ?? "").split(" ");
  }

  get good() {
    return this.status === 200 || this.status === 201;
  }
}

// How many answers are waited for, and since when there are some. The page shows that there are, and after two seconds for how long.
let waiting = 0;
let since = 0;
let clock;
const PATIENCE = 2;

function wait(more) {
  if (waiting === 0) {
    since = Date.now();
    clock = setInterval(() => showWaiting(Math.round((Date.now() - since) / 1000)), 1000);
  }
  waiting += more;
  if (waiting === 0) {
    clearInterval(clock);
    showWaiting(0);
  }
  document.body.toggleAttribute("data-waiting", waiting > 0);
}

// Who listens hears it once; the seconds are for the eye.
function showWaiting(seconds) {
  const [said, count] = ["waiting-said", "waiting-seconds"].map((id) => document.getElementById(id));
  const words = seconds < PATIENCE ? "" : "waiting for the desk";
  if (said.textContent !== words) said.textContent = words;
  count.textContent = words === "" ? "" : `, ${seconds} s`;
  said.parentElement.classList.toggle("quiet", words === "");
}

// The status and the bytes of an answer; the status is 0 where none came.
async function request(method, path, body) {
  wait(1);
  try {
    const response = await fetch(new URL(path, location.origin), {
      method,
      body: body === undefined || typeof body === "string" || body instanceof Blob ? body : JSON.stringify(body),
      cache: "no-store",
      credentials: "same-origin",
      redirect: "error",
    });
    return [response.status, await response.arrayBuffer()];
  } catch {
    return [0, new ArrayBuffer(0)];
  } finally {
    wait(-1);
  }
}

export async function ask(method, path, body) {
  const [status, bytes] = await request(method, path, body);
  return new Answer(status, new TextDecoder().decode(bytes));
}

// The text of a draft, and its first bytes as letters. Where it is no UTF-8 it can't be shown, and `text` is null.
export async function askDraft(draft) {
  const [status, bytes] = await request("GET", `/drafts/${draft}`);
  const answer = new Answer(status, status === 200 ? "" : new TextDecoder().decode(bytes));
  answer.head = String.fromCharCode(...new Uint8Array(bytes).slice(0, 4));
  if (status === 200) {
    try {
      answer.text = new TextDecoder("utf-8", { fatal: true, ignoreBOM: true }).decode(bytes);
    } catch {
      answer.text = null;
    }
  }
  return answer;
}

const FULL = { drafts: "drafts", revisions: "revisions of this draft", books: "books", orders: "orders", calls: "requests before its next start" };

// An answer that isn't what was hoped for, as a sentence.
export function trouble(answer) {
  const [first, second, third] = answer.words;
  switch (answer.status) {
    case 0: return "No answer came. Is there a connection? What you sent may have been done or not: send it again as it is.";
    case 401: return "You aren't signed in.";
    case 403: return first === "owner" ? `It is ${second}'s. Only ${second} can do this.` : "You aren't allowed to do this here.";
    case 408: return "The request took too long to come. Send it again.";
    case 409: return first === "changed" ? `The draft was changed meanwhile: it has revision ${second}. Open it again.`
      : `Under this number another order of yours is kept, of book ${third}. Take another number.`;
    case 410: return `Book ${second} was withdrawn: it takes no more orders. Choose another book.`;
    case 413: return "The text is longer than 1,048,576 bytes.";
    case 429: return "More was asked or ordered than is allowed at a time. Try again later.";
    case 500: return "The desk had no memory for this. Send it again later.";
    case 502: case 504: return "The desk doesn't answer just now. Try again in a minute.";
    case 503: return first === "store" ? "The desk couldn't write to its store. Tell whoever runs it."
      : "The desk isn't there just now: it may be starting. Try again in a minute.";
    case 507: return `The desk is full: it takes no more ${FULL[second] ?? second}. Tell whoever runs it.`;
  }
  if (first === "no" && second === "such") return `There is no such ${third}.`;
  return `The desk says: ${answer.lines[0] ?? answer.status}`;
}

// `book N DRAFT NAME FIRST LAST`, and behind it `withdrawn`.
export function readBooks(answer) {
  return answer.lines.filter((line) => line.startsWith("book ")).map((line) => {
    const [, number, draft, title, first, last, withdrawn] = line.split(" ");
    return { number: +number, draft, title, first: +first, last: +last, withdrawn: withdrawn === "withdrawn" };
  });
}

// `order N book B day D`, and at the end `more` or `end`.
export function readOrders(answer) {
  const orders = answer.lines.filter((line) => line.startsWith("order ")).map((line) => {
    const words = line.split(" ");
    return { number: +words[1], book: +words[3], day: +words[5] };
  });
  return { orders, more: answer.lines.at(-1) === "more" };
}

// What can still be chosen: what the order comes to as it stands, and a state for each code.
export function readFree(answer) {
  const states = new Map();
  let kind = "some";
  for (const line of answer.lines.slice(1)) {
    const [word, code] = line.split(" ");
    if (word === "none" || word === "undecided") kind = word;
    else if (word !== "end") states.set(code, word);
  }
  return { now: answer.words.slice(1), kind, states };
}

// Why an order is refused: what is added by which rule, what it comes to, and how it would be accepted.
export function readWhy(answer) {
  const why = { adds: new Map(), outcome: [], clash: null, leave: [], add: [], noOrder: false, undecided: false };
  for (const line of answer.lines) {
    const words = line.split(" ");
    switch (words[0]) {
      case "adds": why.adds.set(words[1], words[3]); break;
      case "accepted": case "refused": why.outcome = words; break;
      case "unfit": if (why.outcome.length === 0) why.outcome = words; break;
      case "clash": {
        const at = words.findIndex((word, place) => place > 0 && (word === "by" || word === "within"));
        why.clash = { codes: words.slice(1, at), entries: words.slice(at + 1) };
        break;
      }
      case "leave": why.leave = words.slice(1); break;
      case "add": why.add = words.slice(1); break;
      case "no": why.noOrder = true; break;
      case "undecided": why.undecided = true; break;
    }
  }
  return why;
}

// A kept or accepted order: `book B day D` where it was read, then its codes and a row for each part.
export function readOrder(answer) {
  const order = { book: null, day: null, codes: [], parts: [] };
  for (const line of answer.lines) {
    const words = line.split(" ");
    if (words[0] === "book") Object.assign(order, { book: +words[1], day: +words[3] });
    else if (words[0] === "codes") order.codes = words.slice(1).filter((code) => code !== "");
    else if (line.includes(",")) {
      const [module, position, part, quantity] = line.split(",");
      order.parts.push({ module, position, part, quantity });
    }
  }
  return order;
}

const BLOCKING = new Set(["void", "ambiguous", "uncovered"]);

// A report of a check: slices with their findings, and what it comes to.
export function readReport(lines) {
  const report = { slices: [], verdict: null };
  for (const line of lines) {
    let words = line.split(" ");
    if (words[0] === "slice") report.slices.push({ first: +words[1], last: +words[2], findings: [] });
    else if (words[0] === "end") report.verdict = words[1];
    else if (words[0] !== "book" && report.slices.length > 0) {
      let after = null;
      if (words[0] === "undecided") {
        after = words.at(-1);
        words = words.slice(1, -2);
      }
      const at = words.indexOf("with");
      report.slices.at(-1).findings.push({
        kind: words[0], names: words.slice(1, at < 0 ? undefined : at), car: at < 0 ? null : words.slice(at + 1).filter((code) => code !== ""),
        after, blocks: BLOCKING.has(words[0]),
      });
    }
  }
  return report;
}

const LAST_NUMBER = 999999999;

// A number under which the caller has no order yet, above all others if there is one; or null where no answer says so. The desk
// lists a thousand at a time; further ones are found by halving.
export async function nextNumber() {
  const first = await ask("GET", "/orders");
  if (!first.good) return null;
  let page = readOrders(first);
  const taken = new Set(page.orders.map((order) => order.number));
  let low = page.orders.at(-1)?.number ?? 0;
  let high = LAST_NUMBER;
  while (page.more && low < high) {
    const middle = Math.floor((low + high) / 2);
    const answer = await ask("GET", `/orders/after/${middle}`);
    if (!answer.good) return null;
    page = readOrders(answer);
    if (page.orders.length === 0) {
      high = middle;
      page.more = true;
    } else low = page.orders.at(-1).number;
  }
  if (low < LAST_NUMBER) return low + 1;
  for (let free = 1; ; free += 1) if (!taken.has(free)) return free;
}

// Elements of the page. Every text is put in as text: nothing here reads markup.

export function el(name, attributes, ...children) {
  const made = document.createElement(name);
  for (const [key, value] of Object.entries(attributes ?? {})) {
    if (key.startsWith("on")) made.addEventListener(key.slice(2), value);
    else if (value === true) made.setAttribute(key, "");
    else if (value !== false && value != null) made.setAttribute(key, value);
  }
  put(made, ...children);
  return made;
}

// Replaces what an element has by these elements and texts.
export function put(place, ...children) {
  place.replaceChildren(...children.flat(3).filter((child) => child != null && child !== ""));
}

// A text of a book: it may be long, in another script, or written from right to left.
export function text(words, most = 300) {
  const all = [...words];
  return el("bdi", { class: "text" }, all.length > most ? `${all.slice(0, most).join("")}…` : words);
}

export function name(word) {
  return el("span", { class: "name" }, word);
}

export function button(label, does, attributes) {
  return el("button", { type: "button", onclick: does, ...attributes }, label);
}

let leaving;

// Says one sentence to whoever reads the page by ear, and shows it unless it is a quiet one. What is no trouble goes after a while.
export function say(sentence, trouble = false, quiet = false) {
  const place = document.getElementById("said");
  clearTimeout(leaving);
  if (!trouble && !quiet && sentence !== "") leaving = setTimeout(() => say(""), 8000);
  place.classList.toggle("trouble", trouble);
  place.classList.toggle("quiet", quiet || sentence === "");
  put(place, sentence, quiet || sentence === "" ? null : button("×", () => say(""), { class: "close", "aria-label": "Close this message" }));
}

// Runs work that may take long, and shows for how long it does. What was begun can't be begun again meanwhile.
export async function working(control, what, work) {
  const begun = Date.now();
  control.disabled = true;
  document.body.classList.add("working");
  const clock = setInterval(() => say(`${what}, ${Math.round((Date.now() - begun) / 1000)} s`), 1000);
  try {
    return await work();
  } finally {
    clearInterval(clock);
    control.disabled = false;
    document.body.classList.remove("working");
  }
}

export function days(first, last) {
  return first === last ? `day ${first}` : `days ${first} to ${last}`;
}

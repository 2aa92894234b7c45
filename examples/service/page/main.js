// The pages and who looks at them.

import { ask } from "/page/desk.js";
import { button, el, put, say } from "/page/parts.js";
import * as order from "/page/order.js";
import * as drafts from "/page/drafts.js";

const VIEWS = { order: "Order a car", orders: "My orders", drafts: "Drafts" };
const who = { caller: "", engineer: false };
const begun = new Set();

async function show() {
  const [wanted, ...address] = location.hash.slice(1).split("/");
  const view = wanted in VIEWS && (wanted !== "drafts" || who.engineer) ? wanted : "order";
  document.title = `${VIEWS[view]} · Partsbook`;
  for (const section of document.querySelectorAll("main > section")) section.hidden = section.id !== view;
  for (const link of document.querySelectorAll("nav a")) {
    if (link.dataset.view === view) link.setAttribute("aria-current", "page");
    else link.removeAttribute("aria-current");
  }
  say("");
  if (view === "orders") return order.showOrders();
  if (!begun.has(view)) {
    begun.add(view);
    return view === "order" ? order.start(address) : drafts.start(who.caller);
  }
  if (view === "order") return address.length > 0 ? order.open(address) : order.showAddress();
}

// Which of the proxy's groups the caller is in: `NAME`, and behind it `engineer`. Whoever isn't in one is kept out by the proxy.
async function start() {
  const answer = await ask("GET", "/who");
  [who.caller, who.engineer] = [answer.words[0], answer.words[1] === "engineer"];
  if (!answer.good) {
    put(document.getElementById("main"), el("p", null, "You aren't signed in, or the proxy isn't there."), button("Try again", () => location.reload()));
    return;
  }
  put(document.getElementById("who"), who.caller, who.engineer ? ", engineer" : ", dealer");
  document.querySelector("nav a[data-view=drafts]").hidden = !who.engineer;
  const main = document.getElementById("main");
  // The address is the order's, and no place in the page.
  document.querySelector(".skip").addEventListener("click", (event) => {
    event.preventDefault();
    main.focus();
  });
  addEventListener("hashchange", () => show().then(() => main.focus()));
  await show();
}

start();

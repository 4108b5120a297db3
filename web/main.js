// The frame of these pages: which view an address asks for, and what stands around it.

import { el, link, note, button, say } from "./dom.js";
import { address, asked, named } from "./titles.js";
import { look, draftOf } from "./drafts.js";
import * as lists from "./lists.js";
import * as pages from "./page.js";
import * as tools from "./tools.js";
import { edit } from "./edit.js";

/** The views of a title; those with a `tab` are shown above it. Each is asked for what it shows. */
const OF_A_TITLE = {
  page: { tab: "Page", show: (it) => pages.page(it.title, it.signal, again) },
  source: { tab: "Source", show: (it) => pages.current(it.title, it.signal) },
  edit: { tab: "Edit", show: (it) => edit(it.title, it.signal, go) },
  history: { tab: "History", show: (it) => lists.history(it.title, it.signal) },
  links: { tab: "What links here", show: (it) => lists.linksHere(it.title, it.signal, again) },
  uses: { tab: "What includes it", show: (it) => lists.includedIn(it.title, it.signal, again) },
  at: { name: "One revision", show: (it) => pages.at(it.title, it.numbers, it.signal) },
  diff: { name: "Differences of two revisions", show: (it) => pages.diff(it.title, it.numbers, it.signal) },
};

const OF_THE_WIKI = {
  recent: { name: "Recent changes", show: (it) => lists.recent(it.signal) },
  try: { name: "Try a text", show: (it) => tools.trial(it.signal) },
  wiki: { name: "The wiki’s counts", show: (it) => tools.wiki(it.signal) },
};

const main = document.getElementById("main");
let turn = new AbortController();
let message = "";

/** Opens an address with a message that is shown there, also where it is the present one. */
function go(hash, told) {
  message = told;
  if (location.hash === hash) again();
  else location.hash = hash;
}

function again() {
  open(false);
}

function tabs(title, current) {
  const tab = ([view, it]) => {
    const mark = view === "edit" && look(draftOf(title)) ? [" ", el("span", { class: "dot", title: "something that isn't saved" }, "•")] : [];
    return link(address(title, view === "page" ? "" : view), [it.tab, ...mark], { "aria-current": view === current ? "page" : undefined });
  };
  return el("nav", { class: "tabs", "aria-label": `Views of ${title}` }, ...Object.entries(OF_A_TITLE).filter(([, it]) => it.tab).map(tab));
}

/** The heading of a view. */
function head({ title, view }, it) {
  const first = el("h1", { tabIndex: -1 }, title || it.name);
  return title ? [first, tabs(title, view), it.name ? el("h2", { class: "under" }, it.name) : null].filter(Boolean) : [first];
}

function failure(it) {
  return [note("bad", el("p", {}, it.message), button("Try again", again))];
}

/** Shows what the address asks for. What comes for an address that was left meanwhile is dropped. */
async function open(first) {
  turn.abort();
  turn = new AbortController();
  const mine = turn;
  const to = asked(location.hash, Object.keys(OF_A_TITLE));
  const it = (to.title || to.bad ? OF_A_TITLE : OF_THE_WIKI)[to.view];
  say(message);
  message = "";
  for (const one of document.querySelectorAll(".sites a")) one.setAttribute("aria-current", !to.title && one.dataset.view === to.view ? "page" : "false");
  if (!it || to.bad) {
    main.replaceChildren(el("h1", { tabIndex: -1 }, "Nothing is here"), note("bad", "This address names no page and no view."), link("#", "Recent changes"));
    return;
  }
  const above = head(to, it);
  document.title = `${[it.tab && it.tab !== "Page" ? it.tab : it.name, to.title].filter(Boolean).join(": ")} · Wiki`;
  const place = el("div", { class: "view" }, el("p", { class: "loading" }, "Loading .."));
  main.replaceChildren(...above, place);
  if (!first) {
    scrollTo(0, 0);
    above[0].focus({ preventScroll: true });
  }
  let shown;
  try {
    shown = await it.show({ ...to, signal: mine.signal });
  } catch (refused) {
    shown = failure(refused);
  }
  if (mine.signal.aborted) return;
  place.replaceChildren(...shown.filter(Boolean));
}

document.getElementById("go").addEventListener("submit", (event) => {
  event.preventDefault();
  const box = document.getElementById("title");
  const title = named(box.value);
  if (!title) return say("Type the title of a page.", "bad");
  box.value = "";
  go(address(title), "");
});

document.getElementById("skip").addEventListener("click", () => main.focus());

document.addEventListener("click", (event) => {
  const one = event.target.closest?.("a");
  if (!one || event.ctrlKey || event.metaKey || event.shiftKey || one.hash !== location.hash) return;
  event.preventDefault();
  again();
});

document.addEventListener("keydown", (event) => {
  if (event.key !== "/" || event.ctrlKey || event.metaKey || event.altKey || event.target.closest?.("input, textarea, select")) return;
  event.preventDefault();
  document.getElementById("title").focus();
});

addEventListener("hashchange", () => open(false));
open(true);

// Views of the whole wiki: a place to try a text, and the wiki's counts.

import * as api from "./api.js";
import { el, note, number } from "./dom.js";
import { look, keep } from "./drafts.js";

const TRIED = "tried";
const PAUSE = 300;

/** Shows in a place what a text expands to, a moment after it was typed last; a reply to an older text is dropped. */
export function expander(place, signal) {
  let turn = 0;
  let timer;
  let stop = new AbortController();
  const ask = async (mine, title, text) => {
    stop.abort();
    stop = new AbortController();
    place.setAttribute("aria-busy", "true");
    let shown;
    try {
      const got = text === "" ? "" : await api.expand(title, text, AbortSignal.any([signal, stop.signal]));
      shown = got === "" ? el("p", { class: "quiet" }, text === "" ? "What you type is expanded here." : "This expands to nothing.") : el("pre", { class: "text" }, got);
    } catch (it) {
      if (it.name === "AbortError") return;
      shown = note("bad", it.message);
    }
    if (mine !== turn || signal.aborted) return;
    place.removeAttribute("aria-busy");
    place.replaceChildren(shown);
  };
  return (title, text, pause = PAUSE) => {
    clearTimeout(timer);
    const mine = ++turn;
    timer = setTimeout(() => signal.aborted || ask(mine, title, text), pause);
  };
}

/** A place to try what a text expands to as one types. */
export async function trial(signal) {
  const before = look(TRIED) ?? { title: "", text: "" };
  const title = el("input", { id: "trial-title", type: "text", value: before.title, placeholder: "API", autocomplete: "off", spellcheck: false });
  const text = el("textarea", { id: "trial-text", value: before.text, rows: 10, spellcheck: false, placeholder: "{{Greeting|Ann}}" });
  const place = el("div", { class: "result", role: "region", "aria-label": "What it expands to", "aria-live": "polite" });
  const show = expander(place, signal);
  const changed = () => {
    keep(TRIED, { title: title.value, text: text.value });
    show(title.value, text.value);
  };
  title.oninput = changed;
  text.oninput = changed;
  show(before.title, before.text, 0);
  return [
    el("p", { class: "quiet" }, "Nothing is saved here. The text is expanded as if it stood on the page that you name."),
    el("p", { class: "field" }, el("label", { for: "trial-title" }, "As on the page"), title),
    el("div", { class: "sides" }, el("div", {}, el("label", { for: "trial-text" }, "Text"), text), el("div", {}, el("span", { class: "label" }, "It expands to"), place)),
  ];
}

/** What the wiki has, and what is left to do. */
export async function wiki(signal) {
  const it = await api.counts(signal);
  const figure = (value, what) => el("div", {}, el("dt", {}, what), el("dd", {}, number(value)));
  return [
    el("dl", { class: "figures" }, figure(it.pages, "pages"), figure(it.edits, "revisions"), figure(it.jobs, "jobs left")),
    el("p", {}, it.jobs ? "Until these jobs are done, the lists of what links to a page, what includes it and what is in a category may be behind what was saved. The wiki does one with each request." : "No job is left: the lists of what links to a page, what includes it and what is in a category are up to date."),
    el("p", { class: "quiet" }, "The texts of pages are always expanded as they are now, and wait for no job."),
    el("h2", {}, "By keyboard"),
    el("p", {}, el("kbd", {}, "/"), " goes to the title of a page, ", el("kbd", {}, "Ctrl"), "+", el("kbd", {}, "S"), " saves where a page is edited."),
  ];
}

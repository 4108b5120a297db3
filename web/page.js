// Views of a page: as it expands, its source, an older revision, and the differences of two revisions.

import * as api from "./api.js";
import { el, link, note, number, count, moment, folded } from "./dom.js";
import { address, pieces, isCategory } from "./titles.js";
import { differences } from "./diff.js";
import { members } from "./lists.js";

const MOST_LINKS = 5000;
const SHOWN = 30;

/** A text with links where the wiki names the target itself. */
function linked(text, links, categories) {
  const found = pieces(text, links, categories, MOST_LINKS);
  return el("div", { class: "text", lang: "und" }, ...found.map((it) => (typeof it === "string" ? it : link(address(it.title), it.text))));
}

function titles(heading, items, none, make) {
  const list = items.length ? folded(items, SHOWN, make) : el("p", { class: "quiet" }, none);
  return el("section", {}, el("h2", {}, heading, " ", el("span", { class: "count" }, number(items.length))), list);
}

const entry = (it) => el("li", {}, link(address(it.title), it.title));

function category(it) {
  const title = `Category:${it.category}`;
  return el("li", {}, link(address(title), it.category), it.sortkey && el("span", { class: "quiet" }, " sorted by ", el("q", {}, it.sortkey)));
}

/** What is shown where a page is missing: whether it ever was, and how it is made. */
async function missing(title, signal) {
  const last = await api.revision(title, undefined, signal);
  const make = link(address(title, "edit"), last ? "Write it anew" : "Write it", { class: "act" });
  if (!last) return note("info", el("p", {}, "There is no page of this title yet."), make);
  return note("info", el("p", {}, "This page was deleted on ", moment(last.timestamp), ". Its ", link(address(title, "history"), "history"), " can be read."), make);
}

/** A page as it expands, with what it links to, includes and belongs to; of a category its members too. */
export async function page(title, signal, again) {
  const rest = isCategory(title) ? [el("h2", {}, "Pages in this category"), ...(await members(title, signal, again))] : [];
  let it;
  try {
    it = await api.parse(title, signal);
  } catch (refused) {
    if (refused.code !== "missingtitle") throw refused;
    return [await missing(title, signal), ...rest];
  }
  const redirect = it.redirect && note("info", "This page redirects to ", link(address(it.redirect.title), it.redirect.title), ".");
  const text = it.expanded === "" ? el("p", { class: "quiet" }, "This page expands to nothing.") : linked(it.expanded, it.links, it.categories);
  const side = el(
    "aside",
    { class: "about", "aria-label": "About this page" },
    titles("Links to", it.links, "No page.", entry),
    titles("Includes", it.templates, "No template.", entry),
    titles("Categories", it.categories, "None.", category),
    el("p", { class: "quiet" }, "Revision ", link(address(title, "at", it.revid), String(it.revid))),
  );
  return [redirect, el("div", { class: "two" }, el("div", {}, text, ...rest), side)];
}

/** A text as it was typed. */
function source(text, label) {
  if (text === "") return el("p", { class: "quiet" }, "The text is empty.");
  return el("pre", { class: "source", tabIndex: 0, role: "region", "aria-label": label }, text);
}

function about(it) {
  return el("p", { class: "quiet" }, `Revision ${it.revid}, saved on `, moment(it.timestamp), it.deleted ? ": the page was deleted." : `, ${count(it.size, "byte")}`);
}

/** The current text of a page. */
export async function current(title, signal) {
  const it = await api.revision(title, undefined, signal);
  if (!it || it.deleted) return [await missing(title, signal)];
  return [about(it), source(it.content, "Source of the page")];
}

/** A number of an address, or a refusal in words. */
function id(text) {
  if (!/^[0-9]{1,15}$/.test(text ?? "")) throw new api.Refusal(`“${text ?? ""}” is no number of a revision.`);
  return Number(text);
}

async function wanted(title, text, signal) {
  const it = await api.revision(title, id(text), signal);
  if (!it) throw new api.Refusal(`This page has no revision ${text}.`);
  return it;
}

/** The text of one revision. */
export async function at(title, [text], signal) {
  const it = await wanted(title, text, signal);
  const older = note("info", "This is one revision of the page: its templates aren't expanded. ", link(address(title), "The page as it is now"));
  return [older, about(it), it.deleted ? null : source(it.content, `Source of revision ${it.revid}`)];
}

const heading = (title, it) => [link(address(title, "at", it.revid), `Revision ${it.revid}`), el("br"), moment(it.timestamp), it.deleted ? " (deleted)" : ""];

/** The differences of two revisions. */
export async function diff(title, numbers, signal) {
  const [older, newer] = await Promise.all([wanted(title, numbers[0], signal), wanted(title, numbers[1], signal)]);
  return [differences(older.content, newer.content, [heading(title, older), heading(title, newer)])];
}

// Lists: recent changes, a page's history, what links to a page or includes it, and a category's members.

import * as api from "./api.js";
import { el, link, button, note, number, count, moment, say, busy } from "./dom.js";
import { address } from "./titles.js";

const LIMIT = 25;
const KINDS = { new: "new", edit: "changed", delete: "deleted" };

/** A list that goes on by a button: `part` asks for what stands behind a number, `put` shows the entries of a part. */
async function listing(part, put, none, signal) {
  const first = await part(undefined);
  if (!first.entries.length) return el("p", { class: "quiet" }, none);
  const told = el("p", { class: "quiet" });
  let total = 0;
  let next;
  const take = (got) => {
    const made = put(got.entries);
    total += got.entries.length;
    next = got.next;
    more.hidden = next === undefined;
    told.textContent = next === undefined ? `All ${number(total)} are shown.` : `${number(total)} are shown, and there are more.`;
    return made;
  };
  const more = button("Show more", () =>
    busy(more, async () => {
      try {
        const made = take(await part(next));
        (made.querySelector("a") ?? more).focus();
      } catch (it) {
        if (!signal.aborted) say(it.message, "bad");
      }
    }),
  );
  take(first);
  return el("div", { class: "more" }, more, told);
}

/** How far the tables behind a list may lag, by the jobs that are left. */
async function lag(signal, again) {
  const { jobs } = await api.counts(signal);
  if (!jobs) return null;
  return note("info", `This list may be behind what was saved: the wiki has ${count(jobs, "job")} left, and does one with each request. `, button("Look again", again, { class: "plain" }));
}

/** A list of pages, each as a link, with what else is told of it. */
async function pages({ name, prefix, asked, none, more, signal, again }) {
  const shown = new Set();
  const list = el("ul", { class: "pages" });
  const put = (entries) => {
    // (a list that is counted may tell a page twice where another came in between)
    const fresh = entries.filter((it) => !shown.has(it.pageid) && shown.add(it.pageid));
    const made = fresh.map((it) => el("li", {}, link(address(it.title), it.title), more?.(it)));
    list.append(...made);
    return made[0] ?? list;
  };
  const [behind, foot] = await Promise.all([lag(signal, again), listing((from) => api.list(name, prefix, asked, LIMIT, from, signal), put, none, signal)]);
  return [behind, list, foot];
}

export const linksHere = (title, signal, again) => pages({ name: "backlinks", prefix: "bl", asked: { bltitle: title }, none: "No page links here.", signal, again });
export const includedIn = (title, signal, again) => pages({ name: "embeddedin", prefix: "ei", asked: { eititle: title }, none: "No page includes this one.", signal, again });

export function members(title, signal, again) {
  const more = (it) => it.sortkeyprefix && el("span", { class: "quiet" }, " sorted by ", el("q", {}, it.sortkeyprefix));
  return pages({ name: "categorymembers", prefix: "cm", asked: { cmtitle: title }, none: "No page is in this category.", more, signal, again });
}

/** The revisions of all pages, the newest first, under the days on which they were saved. */
export async function recent(signal) {
  const days = el("div", { class: "days" });
  let day;
  let list;
  const entry = (it) => {
    const what = it.type === "edit" ? link(address(it.title, "diff", it.oldrevid, it.revid), "changes") : it.type === "new" ? link(address(it.title, "at", it.revid), "text") : "";
    return el("li", {}, moment(it.timestamp, "clock"), el("span", { class: `kind ${it.type}` }, KINDS[it.type] ?? it.type), link(address(it.title), it.title, { class: "what" }), el("span", { class: "acts" }, what, link(address(it.title, "history"), "history")));
  };
  const put = (entries) => {
    let first;
    for (const it of entries) {
      const name = moment(it.timestamp, "day");
      if (name.textContent !== day) {
        day = name.textContent;
        list = el("ol", { class: "changes" });
        days.append(el("section", {}, el("h2", {}, day), list));
      }
      const made = entry(it);
      first ??= made;
      list.append(made);
    }
    return first ?? days;
  };
  const foot = await listing((from) => api.list("recentchanges", "rc", {}, LIMIT, from, signal), put, "Nothing was saved in this wiki so far. Open a title above to make its first page.", signal);
  return [days, foot];
}

/** The revisions of a page, of which two are chosen to be compared. */
export async function history(title, signal) {
  const body = el("tbody");
  const choice = (name, it, chosen) => el("td", { class: "choice" }, el("input", { type: "radio", name, value: it.revid, checked: chosen, "aria-label": `revision ${it.revid} as the ${name} one` }));
  const put = (entries) => {
    const made = entries.map((it) => {
      const at = body.children.length + entries.indexOf(it);
      const text = it.deleted ? el("span", { class: "kind delete" }, "deleted") : link(address(title, "at", it.revid), "text");
      const size = it.deleted ? "" : count(it.size, "byte");
      const changes = it.parentid && !it.deleted ? link(address(title, "diff", it.parentid, it.revid), "changes") : it.deleted ? "" : el("span", { class: "kind new" }, "new");
      return el("tr", {}, choice("older", it, at === 1 || (at === 0 && entries.length === 1)), choice("newer", it, at === 0), el("td", {}, String(it.revid)), el("td", { class: "saved" }, moment(it.timestamp)), el("td", { class: "size" }, size), el("td", { class: "show" }, text, " ", changes));
    });
    body.append(...made);
    return made[0] ?? body;
  };
  const foot = await listing((from) => api.revisions(title, LIMIT, from, signal), put, "This page has no revisions.", signal);
  const head = el("tr", {}, ...["Older", "Newer", "Revision", "Saved", "Size", "Show"].map((it) => el("th", { scope: "col" }, it)));
  const table = el("table", { class: "history" }, el("thead", {}, head), body);
  const compare = el("form", { onsubmit }, el("p", {}, el("button", { type: "submit" }, "Compare the two")), el("div", { class: "wide" }, table));
  function onsubmit(event) {
    event.preventDefault();
    const of = (name) => compare.querySelector(`input[name=${name}]:checked`)?.value;
    const two = [of("older"), of("newer")].map(Number).sort((one, other) => one - other);
    location.hash = address(title, "diff", ...two);
  }
  return [compare, foot];
}

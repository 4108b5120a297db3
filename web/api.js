// The wiki's API (docs/API.md): requests, their replies, and refusals in words.

import { look, keep, forget } from "./drafts.js";
import { number } from "./dom.js";

const TOKEN = "+\\";
const SECONDS = 90;
const POINT = "point";

/** A request that the wiki, or the server before it, refused: nothing was changed. */
export class Refusal extends Error {
  constructor(words, error = {}) {
    super(words);
    Object.assign(this, { code: error.code, current: error.current });
  }
}

/** A request of which nobody knows whether it was done, since no reply came. */
export class NoReply extends Error {}

const WORDS = {
  badtoken: () => "The wiki didn't take the token of this save.",
  notitle: () => "A title is missing.",
  notext: () => "The text is missing.",
  badinteger: (it) => `A number of this address isn't one (${it.parameter}).`,
  invalidtitle: () => "No page can have this title. A title has at most 255 bytes and none of < > [ ] | { } #, it has a name behind its namespace, and it isn't in Special or Media.",
  invalidcategory: () => "This title is no category's: a category's title begins with “Category:”.",
  contenttoobig: () => "The text is longer than 2,097,152 bytes, which is the most that a page can have.",
  articleexists: () => "There is a page of this title already.",
  missingtitle: () => "There is no page of this title.",
  editconflict: () => "Someone else has saved this page since you began.",
  readonly: () => "This is a replica of the wiki, which can only be read. Nothing was saved.",
  wikifull: (it) => `The wiki is full: it can't take more ${{ pages: "pages", revisions: "revisions", text: "text" }[it.limit] ?? it.limit}. Nothing was saved.`,
  journalfull: () => "The wiki takes no more changes until it is started again; pages can be read meanwhile. Nothing was saved.",
  nomemory: () => "The wiki has run out of memory. Nothing was saved.",
  storefault: () => "The wiki couldn't write to its disk. Nothing was saved; whoever runs the wiki has to look at it.",
};

const STATUSES = {
  403: "The server refused this request: these pages weren't opened at the wiki's own address.",
  413: "The text is too long to be sent: a request has at most 8 MiB, and a page at most 2 MiB.",
  414: "The title is too long.",
  421: "The server doesn't answer at this address.",
  431: "The title is too long.",
};

/** The words of an error of the API. */
function words(error) {
  return WORDS[error.code]?.(error) ?? `The wiki refused this: ${error.info} (${error.code})`;
}

async function reply(response) {
  if (response.status === 200) return response.json();
  if (response.status >= 500 && response.status !== 501) throw new NoReply(`The server answered that the wiki can't be reached (status ${response.status}).`);
  throw new Refusal(STATUSES[response.status] ?? `The server refused this request (status ${response.status}).`);
}

/** Sends a request, by POST or by GET, and gives its reply, which may be an error of the API. */
async function send(parameters, posted, signal) {
  const form = new URLSearchParams(parameters);
  const [address, how] = posted ? ["/api.php", { method: "POST", body: form }] : [`/api.php?${form}`, {}];
  const late = AbortSignal.timeout(SECONDS * 1000);
  try {
    return await reply(await fetch(address, { ...how, cache: "no-store", redirect: "error", signal: signal ? AbortSignal.any([signal, late]) : late }));
  } catch (it) {
    if (it instanceof Refusal || it instanceof NoReply || signal?.aborted) throw it;
    throw new NoReply(late.aborted ? `The wiki didn't answer within ${SECONDS} seconds.` : "No reply came from the wiki: it may have been stopped, or the connection was lost.");
  }
}

/** Whether what was read or done is told as of a later point than before: reads ask for no older answer. */
function seen(point) {
  keep(POINT, point);
}

/** Asks for something, no older than what this window has seen. Points begin anew when the wiki is started again: then without. */
export async function read(parameters, { posted = false, signal } = {}) {
  const least = look(POINT) ?? 0;
  const asked = least ? { ...parameters, minpoint: least } : parameters;
  const got = await send(asked, posted, signal);
  if (got.error?.code === "futurepoint" && least) {
    forget(POINT);
    return read(parameters, { posted, signal });
  }
  if (got.error) throw new Refusal(words(got.error), got.error);
  seen(Math.max(got.point, look(POINT) ?? 0));
  return got;
}

/** Saves or deletes, always with the base. The point of its reply is the one that the next reads ask for. */
async function change(parameters) {
  const got = await send({ ...parameters, token: TOKEN }, true);
  if (got.error) throw new Refusal(words(got.error), got.error);
  seen(got.point);
  return got;
}

export const save = (title, text, base) => change({ action: "edit", title, text, baserevid: base }).then((it) => it.edit);
export const remove = (title, base) => change({ action: "delete", title, baserevid: base }).then((it) => it.delete);
export const parse = (title, signal) => read({ action: "parse", page: title }, { signal }).then((it) => it.parse);
export const expand = (title, text, signal) => read({ action: "expandtemplates", text, ...(title ? { title } : {}) }, { posted: true, signal }).then((it) => it.expandtemplates.wikitext);
export const counts = (signal) => read({ action: "query", meta: "siteinfo" }, { signal }).then((it) => it.query.statistics);

const REVISIONS = { action: "query", prop: "revisions" };

/** A page's newest revision with its text, or the one of this number; null where the title never had such a one. */
export async function revision(title, id, signal) {
  const above = id === undefined ? {} : { rvcontinue: id + 1 };
  try {
    const got = await read({ ...REVISIONS, titles: title, rvprop: "content", ...above }, { signal });
    const found = got.query.revisions[0];
    return found && (id === undefined || found.revid === id) ? found : null;
  } catch (it) {
    if (it.code === "missingtitle") return null;
    throw it;
  }
}

/** A part of a page's revisions without their texts, the newest first, and the number by which they go on. */
export function revisions(title, limit, from, signal) {
  return read({ ...REVISIONS, titles: title, rvlimit: limit, ...(from === undefined ? {} : { rvcontinue: from }) }, { signal }).then((it) => ({ entries: it.query.revisions, next: it.continue }));
}

/** A part of a list, and the number by which it goes on, which is handed back in the list's own parameter. */
export function list(name, prefix, parameters, limit, from, signal) {
  const asked = { action: "query", list: name, ...parameters, [`${prefix}limit`]: limit, ...(from === undefined ? {} : { [`${prefix}continue`]: from }) };
  return read(asked, { signal }).then((it) => ({ entries: it.query[name], next: it.continue }));
}

/** The text that the wiki keeps of one that is saved. */
function kept(text) {
  const whole = text.toWellFormed().replace(/\r\n?/g, "\n").normalize("NFC");
  let end = whole.length;
  while (end > 0 && " \t\n\r".includes(whole[end - 1])) end -= 1;
  return whole.slice(0, end);
}

/** Whether a save was made whose reply didn't come: the save of this text upon the revision `seen`, the newest one of the
 * page when it was read. It was where the current text is this one, or where the first revision above `seen` has it. */
export async function made(title, seen, text) {
  const now = await revision(title);
  const mine = kept(text);
  if (!now || now.revid === seen) return { made: false, now };
  if (!now.deleted && now.content === mine) return { made: true, now };
  let first = now.revid;
  for (let from; first > seen + 1; ) {
    const got = await revisions(title, "max", from);
    const above = got.entries.filter((it) => it.revid > seen);
    first = above.at(-1)?.revid ?? first;
    if (above.length < got.entries.length || got.next === undefined) break;
    from = got.next;
  }
  const next = await revision(title, first);
  return { made: next !== null && !next.deleted && next.content === mine, now, later: true };
}

export const bytes = (text) => number(new TextEncoder().encode(text).length);

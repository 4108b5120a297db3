// Titles: which one a text names, the addresses of these pages, and the links in a text.

const NAMES = ["Media", "Special", "Talk", "User", "User talk", "Project", "Project talk", "File", "File talk", "MediaWiki", "MediaWiki talk", "Template", "Template talk", "Help", "Help talk", "Category", "Category talk"];
const NAMESPACES = new Map([...NAMES.map((it) => [it.toLowerCase(), it]), ["image", "File"], ["image talk", "File talk"]]);
const MARKS = /[\u200E\u200F\u202A-\u202E]/g;

/** The namespace's name and the rest of a title, by its first colon. */
export function parts(title) {
  const colon = title.indexOf(":");
  const name = colon < 0 ? undefined : NAMESPACES.get(title.slice(0, colon).trim().toLowerCase());
  return name ? { name, rest: title.slice(colon + 1).trim() } : { name: "", rest: title };
}

/** The title that a text names, as it is shown, empty where it names none; whether it is legal the wiki says (docs/rules/titles.md). */
export function named(text) {
  let rest = text.toWellFormed().split("#")[0].replace(MARKS, "").normalize("NFC").replace(/[ _]+/g, " ").replace(/^ | $/g, "");
  if (rest.startsWith(":")) rest = rest.slice(1).replace(/^ /, "");
  const title = parts(rest);
  const key = title.rest.replace(/^[a-z]/, (it) => it.toUpperCase()).normalize("NFC");
  return key && title.name ? `${title.name}:${key}` : key;
}

export const isCategory = (title) => parts(title).name === "Category";

/** The address of a view of a title, with its numbers: `#Ann`, `#Ann/history`, `#Ann/diff/3/5`. A slash of the title is written `%2F`. */
export function address(title, view, ...numbers) {
  const encoded = encodeURIComponent(title.toWellFormed().replaceAll(" ", "_")).replaceAll("%3A", ":");
  return `#${[encoded, ...(view ? [view, ...numbers] : [])].join("/")}`;
}

/** What an address asks for: a title with one of these views and numbers, or a view of the whole wiki (`#`, `#/try`,
 * `#/wiki`). Where no such view stands behind a slash, it is one of the title, as someone typed it. */
export function asked(hash, views) {
  const whole = hash.replace(/^#/, "");
  let [first, view = "page", ...numbers] = whole.split("/");
  if (first === "") return { title: "", view: whole.slice(1) || "recent", numbers: [] };
  if (!views.includes(view)) [first, view, numbers] = [whole, "page", []];
  let title;
  try {
    title = named(decodeURIComponent(first));
  } catch {
    title = "";
  }
  return { title, view, numbers, bad: title === "" };
}

/** The places in a text where a target stands in double brackets, in their order: from where to where, and the target. */
function* brackets(text) {
  const target = /[^[\]|{}<>\n]*/y;
  let at = 0;
  let close = 0;
  while ((at = text.indexOf("[[", at)) >= 0) {
    target.lastIndex = at + 2;
    const named = target.exec(text)[0];
    let end = at + 2 + named.length;
    if (text[end] === "|") {
      if (close >= 0 && close <= end) close = text.indexOf("]]", end + 1);
      if (close < 0) return;
      const open = text.indexOf("[[", end + 1);
      end = open >= 0 && open < close ? -1 : close;
    } else if (!text.startsWith("]]", end)) {
      end = -1;
    }
    if (end >= 0) yield { from: at, to: end + 2, named };
    at = end >= 0 ? end + 2 : at + 1;
  }
}

/** A text as pieces: plain strings, and links where a target is one of the titles that the wiki names itself, so many at the most. */
export function pieces(text, links, categories, most) {
  const known = new Set(links.map((it) => it.title));
  const joined = new Set(categories.map((it) => `Category:${it.category}`));
  const found = [];
  let from = 0;
  for (const it of brackets(text)) {
    if (found.length >= 2 * most) break;
    const title = named(it.named);
    if (!(it.named.trim().startsWith(":") ? known : joined.has(title) ? joined : known).has(title)) continue;
    found.push(text.slice(from, it.from), { title, text: text.slice(it.from, it.to) });
    from = it.to;
  }
  return [...found, text.slice(from)];
}

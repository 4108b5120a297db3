// Elements of a page. All that is shown is put in as text: nothing that comes from the wiki is read as markup.

/** An element with its properties, each set by its name (`class`, `for` and those with a dash as attributes), and what it holds. */
export function el(name, properties, ...holds) {
  const made = document.createElement(name);
  for (const [key, value] of Object.entries(properties ?? {})) {
    if (key === "class" || key === "for" || key === "role" || key.includes("-")) {
      if (value !== undefined && value !== false) made.setAttribute(key, value);
    } else {
      made[key] = value;
    }
  }
  made.append(...holds.flat().filter((it) => it !== null && it !== undefined && it !== false));
  return made;
}

/** A link to an address of these pages (titles.js makes them, so each begins with `#`). */
export function link(address, text, properties) {
  return el("a", { href: address, ...properties }, text);
}

export function button(text, act, properties) {
  return el("button", { type: "button", onclick: act, ...properties }, text);
}

/** A note in a box: of the kind `info`, `warn` or `bad`, which is read out at once. */
export function note(kind, ...holds) {
  return el("div", { class: `note ${kind}`, role: kind === "bad" ? "alert" : undefined }, ...holds);
}

export function number(value) {
  return Number(value).toLocaleString("en");
}

/** A count of things in words: `1 page`, `2 pages`. */
export function count(value, one, many = `${one}s`) {
  return `${number(value)} ${Number(value) === 1 ? one : many}`;
}

const DAY = new Intl.DateTimeFormat("en-GB", { weekday: "long", day: "numeric", month: "long", year: "numeric" });
const CLOCK = new Intl.DateTimeFormat("en-GB", { hour: "2-digit", minute: "2-digit" });
const FULL = new Intl.DateTimeFormat("en-GB", { day: "numeric", month: "short", year: "numeric", hour: "2-digit", minute: "2-digit", second: "2-digit" });

/** A moment, in seconds since 1970, in the reader's own time: `day`, `clock` or `full`. Some moments are beyond what a date can hold. */
export function moment(seconds, form = "full") {
  const date = new Date(seconds * 1000);
  if (Number.isNaN(date.getTime())) return el("span", {}, `second ${seconds}`);
  const text = { day: DAY, clock: CLOCK, full: FULL }[form].format(date);
  return el("time", { dateTime: date.toISOString(), title: FULL.format(date) }, text);
}

/** Says something to whoever looks and to whoever listens, until the next page is opened. */
export function say(text, kind = "") {
  const status = document.getElementById("status");
  status.className = `status ${kind}`;
  status.textContent = text;
}

/** A list of which the first are shown, and the others once they are asked for. */
export function folded(items, shown, make, properties) {
  const list = el("ul", properties, ...items.slice(0, shown).map(make));
  if (items.length <= shown) return list;
  const more = button(`Show all ${number(items.length)}`, () => {
    more.remove();
    list.append(...items.slice(shown).map(make));
    list.children[shown].querySelector("a")?.focus();
  });
  return el("div", {}, list, more);
}

/** Shows a button as busy while something is done, so that it isn't pressed twice. */
export async function busy(pressed, doing) {
  pressed.disabled = true;
  pressed.setAttribute("aria-busy", "true");
  try {
    return await doing();
  } finally {
    pressed.disabled = false;
    pressed.removeAttribute("aria-busy");
  }
}

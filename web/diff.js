// The differences of two texts, line by line, and how they are shown: the older beside the newer.

import { el, number, count } from "./dom.js";

const MOST_LINES = 20000;
// How many pairs of lines are compared at the most where no line stands once in both parts.
const MOST_PAIRS = 1e6;
const AROUND = 3;

/** The lines that stand once in each of two parts, as pairs of places that rise in both: the longest such list. */
function landmarks(a, b, [a0, a1], [b0, b1]) {
  const places = new Map();
  for (let i = a0; i < a1; i++) places.set(a[i], places.has(a[i]) ? null : { i, j: -1 });
  for (let j = b0; j < b1; j++) {
    const it = places.get(b[j]);
    if (it) it.j = it.j < 0 ? j : Infinity;
  }
  const tops = [];
  for (const it of places.values()) {
    if (!it || it.j < 0 || it.j === Infinity) continue;
    let [low, high] = [0, tops.length];
    while (low < high) {
      const middle = (low + high) >> 1;
      if (tops[middle].j < it.j) low = middle + 1;
      else high = middle;
    }
    it.before = tops[low - 1];
    tops[low] = it;
  }
  const found = [];
  for (let it = tops.at(-1); it; it = it.before) found.push([it.i, it.j]);
  return found.reverse();
}

/** The pairs of equal lines of two small parts: as many as there can be. */
function compared(a, b, [a0, a1], [b0, b1]) {
  const [n, m] = [a1 - a0, b1 - b0];
  const most = new Uint32Array((n + 1) * (m + 1));
  for (let i = n - 1; i >= 0; i--) {
    for (let j = m - 1; j >= 0; j--) {
      const at = i * (m + 1) + j;
      most[at] = a[a0 + i] === b[b0 + j] ? most[at + m + 2] + 1 : Math.max(most[at + m + 1], most[at + 1]);
    }
  }
  const found = [];
  for (let i = 0, j = 0; i < n && j < m; ) {
    const at = i * (m + 1) + j;
    if (a[a0 + i] === b[b0 + j]) found.push([a0 + i++, b0 + j++]);
    else if (most[at + m + 1] >= most[at + 1]) i++;
    else j++;
  }
  return found;
}

/** The pairs of lines that are the same in both texts, rising in both. */
function same(a, b) {
  const found = [];
  const parts = [[[0, a.length], [0, b.length]]];
  while (parts.length) {
    let [[a0, a1], [b0, b1]] = parts.pop();
    while (a0 < a1 && b0 < b1 && a[a0] === b[b0]) found.push([a0++, b0++]);
    while (a0 < a1 && b0 < b1 && a[a1 - 1] === b[b1 - 1]) found.push([--a1, --b1]);
    if (a0 === a1 || b0 === b1) continue;
    const marks = landmarks(a, b, [a0, a1], [b0, b1]);
    if (!marks.length) {
      if ((a1 - a0) * (b1 - b0) <= MOST_PAIRS) for (const it of compared(a, b, [a0, a1], [b0, b1])) found.push(it);
      continue;
    }
    for (const [i, j] of [...marks, [a1, b1]]) {
      parts.push([[a0, i], [b0, j]]);
      if (i < a1) found.push([i, j]);
      [a0, b0] = [i + 1, j + 1];
    }
  }
  return found.sort((one, other) => one[0] - other[0]);
}

/** The rows of the differences: each with the numbers of its lines, counted from 0, of which one may be missing. */
function rows(a, b) {
  const found = [];
  let [i, j] = [0, 0];
  for (const [p, q] of [...same(a, b), [a.length, b.length]]) {
    for (; i < p || j < q; i = Math.min(i + 1, p), j = Math.min(j + 1, q)) found.push({ i: i < p ? i : null, j: j < q ? j : null });
    if (p < a.length && q < b.length) found.push({ i: i++, j: j++, same: true });
  }
  return found;
}

/** Two lines that differ, each as what stands before the difference, the difference, and what stands behind it. */
function inner(one, other) {
  const most = Math.min(one.length, other.length);
  let [from, behind] = [0, 0];
  while (from < most && one[from] === other[from]) from++;
  while (behind < most - from && one.at(-1 - behind) === other.at(-1 - behind)) behind++;
  // (a character of two units isn't cut)
  if (/[\uD800-\uDBFF]/.test(one[from - 1] ?? "")) from--;
  if (/[\uDC00-\uDFFF]/.test(one[one.length - behind] ?? "")) behind--;
  return [one, other].map((it) => [it.slice(0, from), it.slice(from, it.length - behind), it.slice(it.length - behind)]);
}

function cell(side, kind, line, held) {
  const sign = { del: "−", ins: "+", same: "" }[kind];
  return el("td", { class: `${side} ${kind}` }, el("span", { class: "line", "aria-hidden": "true" }, line === null ? "" : number(line + 1)), el("span", { class: "sign" }, sign), el("span", { class: "held" }, held));
}

function shown(row, a, b) {
  if (row.same) return el("tr", { class: "same" }, cell("older", "same", row.i, a[row.i]), cell("newer", "same", row.j, a[row.i]));
  const empty = (side) => el("td", { class: `${side} none` });
  if (row.i === null) return el("tr", {}, empty("older"), cell("newer", "ins", row.j, el("ins", {}, b[row.j])));
  if (row.j === null) return el("tr", {}, cell("older", "del", row.i, el("del", {}, a[row.i])), empty("newer"));
  const [one, other] = inner(a[row.i], b[row.j]);
  const marked = (name, [before, between, behind]) => [before, el(name, {}, between), behind];
  return el("tr", {}, cell("older", "del", row.i, marked("del", one)), cell("newer", "ins", row.j, marked("ins", other)));
}

/** The differences of two texts, the older one at the left; above 20,000 lines a sentence says so. */
export function differences(older, newer, names) {
  if (older === newer) return el("p", { class: "quiet" }, "The two texts are the same.");
  const [a, b] = [older, newer].map((it) => (it === "" ? [] : it.split("\n")));
  if (Math.max(a.length, b.length) > MOST_LINES) {
    return el("p", { class: "note warn" }, `The differences aren't shown: one of the texts has ${number(Math.max(a.length, b.length))} lines, and at most ${number(MOST_LINES)} are compared.`);
  }
  const all = rows(a, b);
  const near = new Uint8Array(all.length);
  all.forEach((row, at) => !row.same && near.fill(1, Math.max(0, at - AROUND), at + AROUND + 1));
  const body = el("tbody");
  for (let at = 0; at < all.length; at++) {
    if (near[at]) {
      body.append(shown(all[at], a, b));
      continue;
    }
    const from = at;
    while (at + 1 < all.length && !near[at + 1]) at++;
    body.append(el("tr", { class: "gap" }, el("td", { colSpan: 2 }, count(at + 1 - from, "unchanged line"))));
  }
  const head = el("thead", {}, el("tr", {}, ...names.map((it) => el("th", { scope: "col" }, ...[it].flat()))));
  return el("table", { class: "diff" }, head, body);
}

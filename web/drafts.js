// What was typed, by title, in this window alone: it outlives a reload of the page, not the window.

const kept = new Map();
// The keys whose values the browser had no room for.
const unsafe = new Set();

/** What is kept under a key, or null. */
export function look(key) {
  if (kept.has(key)) return kept.get(key);
  try {
    return JSON.parse(sessionStorage.getItem(key));
  } catch {
    return null;
  }
}

/** Keeps a value under a key. False: the browser has no room for it, so a reload would lose it. */
export function keep(key, value) {
  kept.set(key, value);
  try {
    sessionStorage.setItem(key, JSON.stringify(value));
    unsafe.delete(key);
  } catch {
    unsafe.add(key);
  }
  return !unsafe.has(key);
}

export function forget(key) {
  kept.delete(key);
  unsafe.delete(key);
  try {
    sessionStorage.removeItem(key);
  } catch {
    // (without a storage nothing was kept there)
  }
}

/** The key of the draft of a page. */
export const draftOf = (title) => `draft:${title}`;

// The browser asks before it leaves these pages where something would be lost.
addEventListener("beforeunload", (event) => unsafe.size && event.preventDefault());

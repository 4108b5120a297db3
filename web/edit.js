// The view in which a page is edited: what is typed is kept as a draft, a save names its base, a conflict shows both
// texts, and a save whose reply didn't come is looked up.

import * as api from "./api.js";
import { el, link, button, note, moment, say, busy } from "./dom.js";
import { address } from "./titles.js";
import { look, keep, forget, draftOf } from "./drafts.js";
import { differences } from "./diff.js";
import { expander } from "./tools.js";

const PAUSE = 300;
const ARMED = 5000;

/** A button that does something only at its second press. */
function twice(text, sure, act) {
  const made = button(text, () => {
    if (made.textContent === sure) return busy(made, act);
    made.textContent = sure;
    setTimeout(() => (made.textContent = text), ARMED);
  }, { class: "plain danger" });
  return made;
}

/** An editor of one page: its draft is `text` upon the revision `base` (0: the page is missing), where `seen` was the
 * newest revision, a deletion too; `sent` where a save is out whose reply didn't come: true, or its text where something
 * was typed since; `mine` is the text of a conflict that another one was chosen over. */
class Editor {
  constructor(title, now, signal, go) {
    Object.assign(this, { title, signal, go, now, key: draftOf(title) });
    const found = look(this.key);
    this.draft = found ?? this.upon(now);
    this.restored = found !== null;
    this.parts();
    this.resume();
  }

  /** A draft that begins with a revision, or with nothing. */
  upon(now) {
    const there = now && !now.deleted;
    return { text: there ? now.content : "", base: there ? now.revid : 0, seen: now?.revid ?? 0, sent: false };
  }

  parts() {
    const { title, draft } = this;
    this.told = el("div", { class: "told" });
    this.versus = el("div", { class: "versus" });
    this.upto = el("p", { class: "quiet" });
    this.area = el("textarea", { id: "text", value: draft.text, rows: 22, spellcheck: true, oninput: () => this.typed() });
    this.saves = el("button", { type: "submit", class: "main", "aria-keyshortcuts": "Control+S" }, "Save");
    this.size = el("span", { class: "quiet" });
    const result = el("div", { class: "result" });
    const show = expander(result, this.signal);
    this.preview = el("details", { class: "preview", ontoggle: () => this.expands() }, el("summary", {}, "What it expands to"), result);
    this.expands = () => this.preview.open && show(title, this.area.value);
    const drop = twice("Discard what I typed", "Press again to discard it", () => this.discard());
    const acts = el("p", { class: "acts" }, this.saves, link(address(title), "Back to the page"), drop, this.size);
    const form = el("form", { class: "edit", onsubmit: (event) => this.submitted(event) }, el("label", { for: "text" }, "Text of the page"), this.area, acts);
    form.addEventListener("keydown", (event) => (event.ctrlKey || event.metaKey) && event.key === "s" && this.submitted(event));
    this.form = form;
    this.all = [this.told, this.versus, this.upto, form, this.preview, this.deletion()];
    for (const event of ["pagehide", "visibilitychange"]) addEventListener(event, () => this.keepNow(), { signal: this.signal });
    this.signal.addEventListener("abort", () => this.keepNow());
  }

  deletion() {
    if (!this.now || this.now.deleted) return null;
    const act = twice("Delete the page", "Press again to delete it", () => this.remove());
    return el("details", { class: "deletion" }, el("summary", {}, "Delete this page"), el("p", {}, "Its text goes. Its history stays and can be read, and the page can be written again."), act);
  }

  tell(kind, ...holds) {
    this.told.replaceChildren(kind ? note(kind, ...holds) : "");
  }

  /** What the save would be upon. */
  tellBase() {
    this.upto.textContent = this.open ? "Nothing can be saved until you have chosen a text above." : this.draft.base ? `You are editing revision ${this.draft.base}.` : this.draft.seen ? "You are writing a page anew that was deleted." : "You are making this page.";
    this.size.textContent = `${api.bytes(this.area.value)} bytes`;
  }

  /** What follows when the view is opened: where a draft was kept, how it stands to the page as it is now. */
  resume() {
    const { draft, now } = this;
    this.tellBase();
    if (!this.restored) return;
    if (draft.sent) this.settle();
    else if (draft.seen !== (now?.revid ?? 0)) this.conflict(now);
    else {
      this.tell("info", "What you had typed here was brought back. It isn't saved yet.");
      if (draft.mine !== undefined) this.compare(now, true);
    }
  }

  typed() {
    const { draft } = this;
    if (draft.sent === true) draft.sent = draft.text;
    draft.text = this.area.value;
    this.dirty = true;
    clearTimeout(this.timer);
    this.timer = setTimeout(() => this.keepNow(), PAUSE);
    this.expands();
  }

  /** Keeps the draft, if it holds something that the page doesn't. */
  keepNow() {
    clearTimeout(this.timer);
    if (!this.dirty || this.over) return;
    this.dirty = false;
    this.tellBase();
    if (!keep(this.key, this.draft)) this.tell("warn", "This browser has no room to keep what you type through a reload. Save before you close or reload this window.");
  }

  set(changes) {
    Object.assign(this.draft, changes);
    this.dirty = true;
    this.keepNow();
  }

  /** The draft is done with. */
  end(message, view) {
    this.over = true;
    forget(this.key);
    this.go(address(this.title, view), message);
  }

  discard() {
    this.over = true;
    forget(this.key);
    this.go(address(this.title, "edit"), "What you had typed was discarded.");
  }

  submitted(event) {
    event.preventDefault();
    if (!this.saves.disabled) busy(this.saves, () => this.save()).then(() => (this.saves.disabled = Boolean(this.open)));
  }

  async save() {
    if (this.draft.sent && !(await this.settle())) return;
    const text = this.area.value;
    this.set({ text, sent: true });
    this.area.readOnly = true;
    say("Saving ..");
    try {
      const it = await api.save(this.title, text, this.draft.base);
      this.end(it.nochange ? "The page has this text already, so nothing was changed." : `Saved as revision ${it.newrevid}.`);
    } catch (it) {
      say("");
      if (it instanceof api.NoReply || it.code === "editconflict") await this.settle(it.message);
      else {
        this.set({ sent: false });
        this.tell("bad", it.message);
      }
    } finally {
      this.area.readOnly = false;
    }
  }

  /** Looks up whether the save that is out was made. True: it wasn't, and a save with the same base can follow. */
  async settle(why = "The reply to your last save didn't come.") {
    const { draft } = this;
    const text = draft.sent === true ? draft.text : draft.sent;
    let found;
    try {
      found = await api.made(this.title, draft.seen, text);
    } catch (it) {
      if (this.signal.aborted) return false;
      const again = button("Look again", () => busy(again, () => this.settle()));
      this.tell("bad", el("p", {}, why), el("p", {}, `Whether your save was made couldn't be looked up: ${it.message} Your text is kept in this window. `), again);
      return false;
    }
    if (this.signal.aborted) return false;
    const same = draft.sent === true;
    this.set({ sent: false });
    if (found.made && same) {
      this.end(found.later ? "Your save was made, and the page was changed again since." : `Your save was made: it is revision ${found.now.revid}.`);
    } else if (found.made && !found.later) {
      this.now = found.now;
      this.set({ base: found.now.revid, seen: found.now.revid });
      this.tell("info", "Your save was made. What you have typed since isn't saved yet.");
      return true;
    } else if ((found.now?.revid ?? 0) !== draft.seen) {
      this.conflict(found.now);
    } else {
      this.tell("warn", "Your save was not made: no reply came, and the page is as it was. Your text is here; save it again.");
      return true;
    }
    return false;
  }

  /** Another revision came in between: both texts are shown, and one has to be chosen to go on with. */
  conflict(now) {
    this.now = now;
    this.set({ mine: this.area.value });
    this.compare(now, false);
    this.versus.querySelector("h2").focus();
  }

  compare(now, chosen) {
    const gone = !now || now.deleted;
    const theirs = gone ? "" : now.content;
    const upon = { base: gone ? 0 : now.revid, seen: now?.revid ?? 0 };
    const use = (text, whose) => () => {
      this.area.value = text();
      this.open = false;
      this.saves.disabled = false;
      this.set({ ...upon, text: this.area.value });
      this.tell("info", `You go on with ${whose} text. A save makes it the current one.`);
      this.compare(now, true);
      this.expands();
      this.area.focus();
    };
    this.open = !chosen;
    this.saves.disabled = this.open;
    const mine = button("Go on with my text", use(() => (chosen ? this.draft.mine : this.area.value), "your"), { class: "main" });
    const other = button(gone ? "Go on with an empty text" : "Go on with their text", use(() => theirs, gone ? "an empty" : "their"));
    const heads = [gone ? "Theirs: the page was deleted" : ["Theirs: ", link(address(this.title, "at", now.revid), `revision ${now.revid}`), ", ", moment(now.timestamp)], "Mine, not saved"];
    const both = [el("div", { class: "wide" }, differences(theirs, this.draft.mine, heads)), el("p", { class: "acts" }, mine, other)];
    const said = gone ? "The page was deleted while you were editing it." : `Someone else saved revision ${now.revid} of this page while you were editing it.`;
    if (chosen) this.versus.replaceChildren(el("details", {}, el("summary", {}, "Mine beside theirs"), ...both));
    else {
      this.tell();
      this.versus.replaceChildren(el("section", { class: "note warn" }, el("h2", { tabIndex: -1 }, "Edit conflict"), el("p", {}, said, " Your save was not made, and what you typed is kept. Choose the text to go on with; then change it as you like, and save."), ...both));
    }
    this.tellBase();
  }

  async remove() {
    try {
      const it = await api.remove(this.title, this.draft.base);
      this.end(`Deleted by revision ${it.revid}.`);
    } catch (it) {
      const how = it instanceof api.NoReply ? " Look at the history to see whether it was deleted." : it.code === "editconflict" ? " Look at it as it is now before you delete it." : "";
      this.tell("bad", it.message, how);
    }
  }
}

export async function edit(title, signal, go) {
  const now = await api.revision(title, undefined, signal);
  if (signal.aborted) return [];
  return new Editor(title, now, signal, go).all;
}

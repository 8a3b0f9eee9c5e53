// Long lists, of which only the visible rows exist.
import { make } from "./nodes.js";

export const ROW = 26; // the height of a row, in pixels

// `rows` has `count()`, `sign(i)`, which differs whenever a row would look different, `make(i)`, and `empty`, a text or a
// function.
export class List {
  constructor(box, height, rows) {
    Object.assign(this, { box, height, rows, nodes: new Map(), top: 0 });
    this.holder = box.querySelector(".rows");
    box.addEventListener("scroll", () => {
      if (Math.abs(box.scrollTop - this.top) >= 1) this.show();
    }, { passive: true });
  }
  // Forget the rows of the previous run.
  clear() {
    this.nodes.clear();
    this.holder.replaceChildren();
    this.box.scrollTop = this.top = 0;
  }
  // Show the visible rows; if an index is given, scroll to its row.
  show(index = -1) {
    const toRow = top => Math.ceil(top / this.height) * this.height; // so that no row is cut off at the top
    const { box, height } = this, room = box.clientHeight - this.holder.offsetTop, count = this.rows.count();
    let top = box.scrollTop;
    if (index >= 0 && index * height < top) top = toRow(index * height - (room - height) / 3);
    else if (index >= 0 && (index + 1) * height > top + room) top = toRow((index + 1) * height - room + (room - height) / 3);
    this.top = Math.max(0, Math.min(top, count * height - room));
    this.fill(Math.max(0, Math.floor(this.top / height) - 4), Math.min(count, Math.ceil((this.top + box.clientHeight) / height) + 4), count);
    if (Math.abs(box.scrollTop - this.top) >= 1) box.scrollTop = this.top;
  }
  fill(from, to, count) {
    const current = new Map();
    for (let i = from; i < to; i++) {
      const sign = `${i} ${this.rows.sign(i)}`;
      let row = this.nodes.get(sign);
      if (!row) {
        row = this.rows.make(i);
        row.style.top = `${i * this.height}px`;
        for (const it of row.querySelectorAll("button")) it.tabIndex = -1; // the list is one stop of the Tab key
      }
      current.set(sign, row);
    }
    if (!count) current.set("", make("div", { class: "empty" }, this.rows.empty()));
    this.holder.style.height = count ? `${count * this.height}px` : "";
    this.nodes = current;
    const wanted = new Set(current.values());
    for (const row of [...this.holder.children]) if (!wanted.has(row)) row.remove();
    let next = this.holder.firstChild;
    for (const row of wanted) {
      if (row === next) next = next.nextSibling;
      else this.holder.insertBefore(row, next);
    }
  }
  // Report the current row to screen readers, if it exists. Each row has its own id.
  setActive(id) {
    if (id && document.getElementById(id)) this.box.setAttribute("aria-activedescendant", id);
    else this.box.removeAttribute("aria-activedescendant");
  }
  // Return whether the row with this index is visible.
  sees(index) {
    const top = this.box.scrollTop, room = this.box.clientHeight - this.holder.offsetTop;
    return index * this.height >= top && (index + 1) * this.height <= top + room;
  }
}

// The octets of a document: offsets, hexadecimal digits and characters, in lines.
import { List } from "./list.js";
import { marksAt } from "./marks.js";
import { characterOf } from "./octets.js";

const DIGITS = Array.from({ length: 256 }, (_, octet) => octet.toString(16).padStart(2, "0"));

export class View {
  /** `selected(offset)` is called for an octet that is chosen, and `pointed(offset)` for one under the mouse, or -1. */
  constructor(box, { selected, pointed }) {
    this.box = box;
    this.octets = new Uint8Array();
    this.marks = {};
    this.cursor = -1;
    this.width = 16;
    this.selected = selected;
    this.list = new List(box, (row, number) => this.draw(row, number));
    box.addEventListener("click", (event) => {
      const offset = offsetOf(event.target);
      if (offset >= 0 && offset < this.octets.length) this.move(offset);
    });
    box.addEventListener("mousemove", (event) => pointed(offsetOf(event.target)));
    box.addEventListener("mouseleave", () => pointed(-1));
    box.addEventListener("keydown", (event) => this.key(event));
    new ResizeObserver(() => this.fit()).observe(box);
  }

  /** Shows 16 octets in a line, or 8 where there is no room for more. */
  fit() {
    const character = this.list.height * 0.36;
    const width = this.box.clientWidth > 71 * character ? 16 : 8;
    if (width === this.width) return;
    this.width = width;
    this.list.setCount(this.lines);
    if (this.marks.selected) this.reveal(this.marks.selected.begin);
  }

  /** How many lines there are. They have one more place, to mark the end of an input that is cut. */
  get lines() {
    return this.octets.length === 0 ? 0 : Math.ceil((this.octets.length + 1) / this.width);
  }

  show(octets) {
    this.octets = octets;
    this.cursor = -1;
    this.marks = {};
    this.digits = Math.max(4, octets.length.toString(16).length);
    this.box.scrollTop = 0;
    this.list.setCount(this.lines);
  }

  /** Marks octets: of an element that is selected, of one that is pointed at, and the place of a refusal. */
  mark(marks) {
    Object.assign(this.marks, marks);
    this.list.redraw();
  }

  reveal(offset) {
    this.list.reveal(Math.floor(offset / this.width));
  }

  move(offset) {
    this.cursor = Math.max(0, Math.min(this.octets.length - 1, offset));
    this.selected(this.cursor);
    this.reveal(this.cursor);
    this.list.redraw();
  }

  key(event) {
    if (this.octets.length === 0 || event.ctrlKey || event.metaKey || event.altKey) return;
    const page = this.list.seen * this.width;
    const steps = {
      ArrowRight: 1, ArrowLeft: -1, ArrowDown: this.width, ArrowUp: -this.width, PageDown: page, PageUp: -page,
      Home: -this.octets.length, End: this.octets.length,
    };
    if (!(event.key in steps)) return;
    event.preventDefault();
    this.move(this.cursor + steps[event.key]);
  }

  draw(row, number) {
    if (row.childElementCount !== 2 * this.width + 1) this.make(row);
    const begin = number * this.width;
    row.children[0].textContent = begin.toString(16).padStart(this.digits, "0");
    for (let k = 0; k < this.width; k++) {
      const offset = begin + k;
      const octet = this.octets[offset];
      const name = marksAt(offset, this.octets.length, this.marks, this.cursor);
      fillCell(row.children[k + 1], offset, octet === undefined ? "" : DIGITS[octet], name);
      fillCell(row.children[this.width + k + 1], offset, octet === undefined ? "" : characterOf(octet), name);
    }
  }

  make(row) {
    row.className = "octets";
    row.replaceChildren();
    for (const [name, count] of [["b", 1], ["u", this.width], ["i", this.width]]) {
      for (let k = 0; k < count; k++) row.append(document.createElement(name));
    }
  }
}

/** Changes of a cell what is different, since each change costs time. */
function fillCell(cell, offset, text, name) {
  if (cell.textContent !== text) cell.textContent = text;
  if (cell.className !== name) cell.className = name;
  if (cell.dataset.offset !== String(offset)) cell.dataset.offset = offset;
}

function offsetOf(target) {
  const offset = target.dataset?.offset;
  return offset === undefined ? -1 : Number(offset);
}

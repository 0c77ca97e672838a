// What the tree shows: a heading for each document if there are several, its elements, and where it is refused.
import { BER } from "./module.js";

export const HEADING = 0;
export const ELEMENT = 1;
export const REFUSAL = 2;

/** How many octets end a content of indefinite length (X.690 8.1.5). */
const END_OCTETS = 2;

/** The items of documents in preorder. An item is a number; arrays have what is known of each. */
export class Items {
  constructor(documents) {
    this.documents = documents;
    const hasHeadings = documents.length > 1;
    let count = 0;
    for (const document of documents) {
      document.first = count;
      const elements = document.elements;
      if (hasHeadings) count += 1;
      if (elements) count += elements.count + (elements.outcome.isRefused ? 1 : 0);
    }
    this.count = count;
    this.kind = new Uint8Array(count);
    this.document = new Uint32Array(count);
    this.row = new Uint32Array(count);
    this.level = new Uint16Array(count);
    this.around = new Int32Array(count).fill(-1);
    /** The item after the last one inside. */
    this.after = new Uint32Array(count);
    /** The place among the items around the same one, from 1, and how many these are. */
    this.place = new Uint32Array(count);
    this.inside = new Uint32Array(count);
    /** Where the content octets of an element end, and where it ends. */
    this.contentEnd = new Float64Array(count);
    this.end = new Float64Array(count);
    this.isOpen = new Uint8Array(count).fill(1);
    documents.forEach((document, number) => this.add(document, number, hasHeadings ? 1 : 0));
    this.close();
    this.show();
  }

  add(document, number, level) {
    const elements = document.elements;
    let item = document.first;
    if (level === 1) this.set(item++, HEADING, number, 0, 0);
    document.begin = item;
    if (!elements) return;
    for (let row = 0; row < elements.count; row++) {
      this.set(item++, ELEMENT, number, row, elements.depthOf(row) + level);
    }
    if (elements.outcome.isRefused) this.set(item, REFUSAL, number, 0, elements.outcome.depth + level);
  }

  set(item, kind, document, row, level) {
    this.kind[item] = kind;
    this.document[item] = document;
    this.row[item] = row;
    this.level[item] = level;
  }

  /** Finds what is around each item, and where it ends. */
  close() {
    const open = [];
    let outermost = 0;
    for (let item = 0; item < this.count; item++) {
      const level = Math.min(this.level[item], open.length);
      open.length = level;
      if (level > 0) {
        this.around[item] = open[level - 1];
        this.place[item] = ++this.inside[open[level - 1]];
      } else {
        this.place[item] = ++outermost;
      }
      open.push(item);
    }
    this.outermost = outermost;
    for (let item = this.count - 1; item >= 0; item--) {
      if (this.after[item] === 0) this.after[item] = item + 1;
      const around = this.around[item];
      if (around >= 0 && this.after[around] === 0) this.after[around] = this.after[item];
    }
    for (let item = this.count - 1; item >= 0; item--) {
      if (this.kind[item] === ELEMENT) [this.contentEnd[item], this.end[item]] = this.endsOf(item);
    }
  }

  /** Where the content octets of an element end, and where it ends. What is cut ends with the input. */
  endsOf(item) {
    const { octets, outcome } = this.elementsOf(item);
    const row = this.rowOf(item);
    const begin = row.offset + row.header;
    const whole = octets.length;
    if (row.isDefinite) {
      const end = Math.min(begin + row.length, whole);
      return [end, end];
    }
    let last = begin;
    for (let k = item + 1; k < this.after[item]; k = this.after[k]) last = this.end[k];
    const isCut = outcome.isRefused && this.after[item] === this.documentEnd(item);
    return isCut ? [whole, whole] : [last, last + END_OCTETS];
  }

  documentEnd(item) {
    const next = this.documents[this.document[item] + 1];
    return next ? next.first : this.count;
  }

  documentOf(item) {
    return this.documents[this.document[item]];
  }

  elementsOf(item) {
    return this.documentOf(item).elements;
  }

  rowOf(item) {
    return this.elementsOf(item).row(this.row[item]);
  }

  hasInside(item) {
    return this.after[item] > item + 1;
  }

  siblings(item) {
    return this.around[item] < 0 ? this.outermost : this.inside[this.around[item]];
  }

  /** Lists the items that aren't inside a closed one. */
  show() {
    const shown = [];
    for (let item = 0; item < this.count; item = this.isOpen[item] ? item + 1 : this.after[item]) shown.push(item);
    this.shown = Uint32Array.from(shown);
  }

  open(item, isOpen) {
    if (!this.hasInside(item) || (this.isOpen[item] === 1) === isOpen) return false;
    this.isOpen[item] = isOpen ? 1 : 0;
    this.show();
    return true;
  }

  openAll(isOpen) {
    this.isOpen.fill(isOpen ? 1 : 0);
    this.show();
  }

  /** Opens all that is around an item. */
  reveal(item) {
    let isChanged = false;
    for (let around = this.around[item]; around >= 0; around = this.around[around]) {
      if (this.isOpen[around] === 0) isChanged = true;
      this.isOpen[around] = 1;
    }
    if (isChanged) this.show();
    return isChanged;
  }

  /** The place of an item among those that are shown, or of the closed one around it. */
  shownAt(item) {
    let low = 0, high = this.shown.length;
    while (low < high) {
      const middle = (low + high) >> 1;
      if (this.shown[middle] <= item) low = middle + 1;
      else high = middle;
    }
    return low - 1;
  }

  /** The innermost element of a document with an octet, or -1. */
  at(document, offset) {
    const { elements, begin } = this.documents[document];
    if (!elements) return -1;
    let low = 0, high = elements.count;
    while (low < high) {
      const middle = (low + high) >> 1;
      if (elements.offsetOf(middle) <= offset) low = middle + 1;
      else high = middle;
    }
    let item = begin + low - 1;
    if (low === 0) return -1;
    while (item >= 0 && (this.kind[item] !== ELEMENT || this.end[item] <= offset)) item = this.around[item];
    return item;
  }

  /** The text of `der tree` of an item and all inside it, or of everything. */
  textOf(item) {
    const lines = [];
    const first = item < 0 ? 0 : item;
    const end = item < 0 ? this.count : this.after[item];
    for (let k = first; k < end; k++) lines.push(this.lineOf(k));
    return lines.join("\n") + "\n";
  }

  lineOf(item) {
    const document = this.documentOf(item);
    if (this.kind[item] === HEADING) return `${document.name}:${document.label ? ` ${document.label}` : ""}`;
    if (this.kind[item] === REFUSAL) return document.elements.faultOf(BER);
    return document.elements.lineOf(this.row[item], false);
  }
}

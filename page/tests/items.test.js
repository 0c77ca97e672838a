import assert from "node:assert/strict";
import test from "node:test";
import { ELEMENT, HEADING, Items, REFUSAL } from "../src/items.js";
import { INDEFINITE, elementsOf } from "./elements.js";

const documentOf = (given) => ({ name: "a file", label: "", octets: elementsOf(given).octets, elements: elementsOf(given) });
const itemsOf = (...given) => new Items(given.map(documentOf));
/** Where the content octets of each item end, and where it ends. */
const endsIn = (items) => Array.from(items.end, (end, item) => [items.contentEnd[item], end]);
const refused = (place, depth) => ({ isRefused: true, place, depth });
const sequence = (offset, length, depth) => ({ offset, header: 2, length, depth, number: 16 });
const integer = (offset, depth) => ({ offset, header: 2, length: 1, depth, number: 2 });

test("an indefinite length ends with two octets (X.690 8.1.5)", () => {
  assert.deepEqual(endsIn(itemsOf(INDEFINITE)), [[12, 14], [5, 5], [10, 12], [10, 10]]);
  assert.deepEqual(endsIn(itemsOf({ hex: "30 80 00 00", rows: [sequence(0, null, 0)] })), [[2, 4]]);
});

test("an indefinite length that is cut ends with the input", () => {
  const rows = [sequence(0, null, 0), integer(2, 1)];
  assert.deepEqual(endsIn(itemsOf({ hex: "30 80 02 01 05", rows, outcome: refused(5, 1) })).slice(0, 2), [[5, 5], [5, 5]]);
  const inner = [sequence(0, null, 0), sequence(2, 3, 1)];
  const given = { hex: "30 80 30 03 02 05 01 00 00 05 00", rows: inner, outcome: refused(4, 2) };
  assert.deepEqual(endsIn(itemsOf(given)).slice(0, 2), [[11, 11], [7, 7]]);
  assert.deepEqual(endsIn(itemsOf(given, INDEFINITE)).slice(1, 3), [[11, 11], [7, 7]], "of the first of two inputs");
});

test("an indefinite length that ends before an error ends with two octets", () => {
  const rows = [sequence(0, null, 0), integer(2, 1)];
  const given = { hex: "30 80 02 01 05 00 00 02 05 06 07", rows, outcome: refused(7, 0) };
  assert.deepEqual(endsIn(itemsOf(given)).slice(0, 2), [[5, 7], [5, 5]]);
});

test("a definite length ends where it says, or with the input", () => {
  const rows = [sequence(0, 3, 0), integer(2, 1), sequence(5, 10, 0)];
  assert.deepEqual(endsIn(itemsOf({ hex: "30 03 02 01 05 30 0a", rows })), [[5, 5], [5, 5], [7, 7]]);
});

test("an item is inside the one around it, and has a number there", () => {
  const items = itemsOf(INDEFINITE);
  assert.deepEqual([...items.kind], [ELEMENT, ELEMENT, ELEMENT, ELEMENT]);
  assert.deepEqual([...items.level], [0, 1, 1, 2]);
  assert.deepEqual([...items.around], [-1, 0, 0, 2]);
  assert.deepEqual([...items.after], [4, 2, 4, 4]);
  assert.deepEqual([...items.place], [1, 1, 2, 1]);
  assert.deepEqual([0, 1, 2, 3].map((item) => items.siblings(item)), [1, 2, 2, 1]);
  assert.deepEqual([0, 1, 2, 3].map((item) => items.hasInside(item)), [true, false, true, false]);
});

test("several documents have headings, and an error is the last item at its depth", () => {
  const cut = { hex: "30 80 02 01 05", rows: [sequence(0, null, 0), integer(2, 1)], outcome: refused(5, 1) };
  const items = itemsOf(cut, INDEFINITE);
  assert.deepEqual([...items.kind], [HEADING, ELEMENT, ELEMENT, REFUSAL, HEADING, ELEMENT, ELEMENT, ELEMENT, ELEMENT]);
  assert.deepEqual([...items.level], [0, 1, 2, 2, 0, 1, 2, 2, 3]);
  assert.deepEqual([...items.document], [0, 0, 0, 0, 1, 1, 1, 1, 1]);
  assert.deepEqual([...items.row], [0, 0, 1, 0, 0, 0, 1, 2, 3]);
  assert.deepEqual(items.documents.map(({ first, begin }) => [first, begin]), [[0, 1], [4, 5]]);
  const broken = new Items([{ name: "note.txt", label: "", error: "why" }, documentOf(INDEFINITE)]);
  assert.deepEqual([...broken.kind], [HEADING, HEADING, ELEMENT, ELEMENT, ELEMENT, ELEMENT]);
});

test("an octet leads to the innermost element that has it", () => {
  const items = itemsOf(INDEFINITE, INDEFINITE);
  const found = Array.from({ length: 15 }, (_, offset) => items.at(1, offset));
  assert.deepEqual(found, [6, 6, 7, 7, 7, 8, 8, 9, 9, 9, 8, 8, 6, 6, -1]);
  assert.deepEqual([itemsOf(INDEFINITE).at(0, 14), itemsOf({ hex: "", rows: [] }).at(0, 0)], [-1, -1]);
});

test("what is inside a closed item isn't shown", () => {
  const items = itemsOf(INDEFINITE);
  assert.deepEqual([...items.shown], [0, 1, 2, 3]);
  assert.equal(items.open(2, false), true);
  assert.deepEqual([...items.shown], [0, 1, 2]);
  assert.equal(items.open(2, false), false, "it is closed");
  assert.deepEqual([true, false].map((isOpen) => items.open(2, isOpen)), [true, true]);
  assert.equal(items.open(1, false), false, "nothing is in it");
  assert.deepEqual([0, 1, 2, 3].map((item) => items.shownAt(item)), [0, 1, 2, 2]);
  assert.equal(items.reveal(3), true);
  assert.deepEqual([...items.shown], [0, 1, 2, 3]);
  assert.equal(items.reveal(3), false);
  items.openAll(false);
  assert.deepEqual([...items.shown], [0]);
  assert.equal(items.reveal(3), true);
  assert.deepEqual([...items.shown], [0, 1, 2, 3]);
  assert.equal(items.open(2, false), true, "it was revealed");
  items.openAll(true);
  assert.deepEqual([...items.shown], [0, 1, 2, 3]);
  assert.equal(items.open(2, false), true, "all were opened");
});

test("the text of an item has all lines inside it", () => {
  const items = itemsOf({ ...INDEFINITE, texts: { line: ["a", "b", "c", "d"] } });
  assert.equal(items.textOf(-1), "a\nb\nc\nd\n");
  assert.equal(items.textOf(2), "c\nd\n");
  const named = new Items([{ name: "x", label: "L", error: "why" }, { name: "y", label: "", error: "why" }]);
  assert.deepEqual([named.textOf(-1), named.textOf(0)], ["x: L\ny:\n", "x: L\n"]);
  const faultOf = (rules) => `the error by ${rules}`;
  const broken = itemsOf({ ...INDEFINITE, texts: { line: ["a", "b", "c", "d"] }, outcome: refused(12, 0), faultOf });
  assert.equal(broken.textOf(-1), "a\nb\nc\nd\nthe error by 0\n");
});

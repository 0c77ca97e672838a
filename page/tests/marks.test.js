import assert from "node:assert/strict";
import test from "node:test";
import { Items } from "../src/items.js";
import { marksAt, placesOf, rangeOf } from "../src/marks.js";
import { INDEFINITE, elementsOf } from "./elements.js";

const elements = elementsOf(INDEFINITE);
const items = new Items([{ name: "a file", label: "", octets: elements.octets, elements }]);
const marksOf = (marks, cursor = -1) => Array.from({ length: 16 }, (_, k) => marksAt(k, 14, marks, cursor));

test("the range of an element", () => {
  assert.deepEqual(rangeOf(items, 0), { begin: 0, content: 2, contentEnd: 12, end: 14 });
  assert.deepEqual(rangeOf(items, 1), { begin: 2, content: 4, contentEnd: 5, end: 5 });
  assert.deepEqual(rangeOf(items, 2), { begin: 5, content: 7, contentEnd: 10, end: 12 });
});

test("end-of-contents octets aren't content (X.690 8.1.1.1)", () => {
  const found = marksOf({ selected: rangeOf(items, 2) });
  const expected = ["", "", "", "", "", "header", "header", "content", "content", "content", "header", "header", "", "", "", ""];
  assert.deepEqual(found, expected);
});

test("an element under the mouse, one that is selected, and the cursor", () => {
  const found = marksOf({ selected: rangeOf(items, 1), pointed: rangeOf(items, 2) }, 3);
  assert.deepEqual(found.slice(1, 8), [
    "", "header", "header cursor", "content", "pointed-header", "pointed-header", "pointed-content",
  ]);
  assert.deepEqual(marksOf({ selected: null, pointed: null }).join(""), "");
});

test("the place of an error, and what isn't read behind it", () => {
  const found = marksOf({ refused: 12 });
  assert.deepEqual(found.slice(11), ["", "refused", "unread", "", ""]);
  assert.equal(marksOf({ refused: 14 })[14], "refused", "behind the last octet");
  assert.deepEqual(marksOf({ warned: 0 }).slice(0, 2), ["warned", ""]);
});

test("an error of BER is marked, or else that of DER", () => {
  const ber = elementsOf({ ...INDEFINITE, outcome: { isRefused: true, place: 5, depth: 0 } });
  assert.deepEqual(placesOf(ber), { refused: 5 });
  assert.deepEqual(placesOf({ ...elements, derOutcome: { isRefused: true, place: 3 } }), { warned: 3 });
  assert.deepEqual(placesOf({ ...elements, derOutcome: null }), {});
});

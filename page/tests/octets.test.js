import assert from "node:assert/strict";
import { createHash } from "node:crypto";
import test from "node:test";
import { base64Of, characterOf, counted, hexLinesOf, hexOf, linkTextOf, octetsOfBase64, pemOf } from "../src/octets.js";

const upTo = (length) => Uint8Array.from({ length }, (_, k) => k);

// SHA-256 of base64.b64encode(bytes((k * 31 + 7) % 256 for k in range(LENGTH))) in Python
const BASE64 = {
  0: "e3b0c44298fc1c149afbf4c8996fb92427ae41e4649b934ca495991b7852b855",
  1: "6aef451400f4cff1ab3ec0140e2d500dfa07f6fb6ae11b99cc75fae266a78d63",
  2: "62d39d5bd524d749f90293af155264c3f414f34c1f5e0e1f2d76e34f09137f0b",
  3: "02b8c3b5ea017f20a1d84163d547f3b87fa3bb7123c793378344fb91a8d70141",
  24575: "b2bcf8a8f1022b70d6b4b43921b350ee6d5535d6718f6a12de7b954d82aac862",
  24576: "52ea5752dbd24d52b353469cb28e5a4e3ed8a5fc4a45c776f79a2b131d8617d2",
  24577: "028f04ef61e390629dfe94d372f2598542340ee7b67a70c1769e951f19bdbb6a",
  24578: "120c3e98a73eae0bec5f9ad6cbf75a23df9dc7d4d75b388e1bfaf4009b5d4884",
  49152: "93bedeb48b5a722590319f7b7a1278e53d18b6f2a3c3ec3a20e6d0de63bcb8f8",
  49153: "c932d71635fdd436f039417acc54e62d5209931bac651c475fd839c0e02c2245",
  73729: "226c657014af1bb12d433b87f5560d3a8bb641ff10ab944f1ef2191c5e3d9d63",
};

test("base64 at the borders of its parts", () => {
  for (const [length, expected] of Object.entries(BASE64)) {
    const text = base64Of(Uint8Array.from({ length: Number(length) }, (_, k) => k * 31 + 7));
    assert.equal(createHash("sha256").update(text).digest("hex"), expected, length);
  }
});

test("base64 for links, and back", () => {
  assert.equal(linkTextOf(Uint8Array.of(0xfb, 0xff)), "-_8");
  assert.equal(linkTextOf(Uint8Array.of(0xfb, 0xef, 0xbe, 0xff, 0xff, 0xff)), "----____");
  for (const text of ["-_8", "+/8=", "-_8="]) assert.deepEqual([...octetsOfBase64(text)], [0xfb, 0xff]);
  assert.deepEqual([[...octetsOfBase64("")], [...octetsOfBase64("BQ")]], [[], [5]]);
  for (const text of ["A", "AAAAA", "A*==", "A\u00e9"]) assert.equal(octetsOfBase64(text), null, text);
});

// openssl base64 writes these lines
test("a block of PEM has lines of 64 characters", () => {
  const octets = Uint8Array.from(Buffer.from("0123456789abcdef".repeat(4)));
  const line = "MDEyMzQ1Njc4OWFiY2RlZjAxMjM0NTY3ODlhYmNkZWYwMTIzNDU2Nzg5YWJjZGVm";
  const end = "-----END A B-----\n";
  assert.equal(pemOf("A B", octets), `-----BEGIN A B-----\n${line}\nMDEyMzQ1Njc4OWFiY2RlZg==\n${end}`);
  assert.equal(pemOf("A B", octets.subarray(0, 48)), `-----BEGIN A B-----\n${line}\n${end}`);
  assert.equal(pemOf("A B", octets.subarray(0, 0)), `-----BEGIN A B-----\n${end}`);
});

test("hexadecimal digits", () => {
  assert.equal(hexOf(Uint8Array.of(0, 10, 0xff)), "000aff");
  assert.equal(hexOf(Uint8Array.of(0, 10, 0xff), " "), "00 0a ff");
  assert.equal(hexLinesOf(upTo(17)), "00 01 02 03 04 05 06 07 08 09 0a 0b 0c 0d 0e 0f\n10");
  assert.equal(hexLinesOf(upTo(16)).split("\n").length, 1);
});

// The printable characters of ASCII are 20 to 7e.
test("an octet as a character", () => {
  const shown = Array.from(upTo(256), characterOf);
  assert.equal(shown.slice(0x20, 0x7f).join(""), Buffer.from(upTo(256)).toString("latin1", 0x20, 0x7f));
  assert.ok([...shown.slice(0, 0x20), ...shown.slice(0x7f)].every((character) => character === "·"));
});

test("a number and its noun", () => {
  const texts = [0, 1, 2, 999, 1000, 1234567].map((number) => counted(number, "octet"));
  assert.deepEqual(texts, ["0 octets", "1 octet", "2 octets", "999 octets", "1,000 octets", "1,234,567 octets"]);
});

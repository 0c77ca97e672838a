// Elements as the module lists them, written by hand.

export const octetsOf = (hex) => Uint8Array.from(Buffer.from(hex.replaceAll(" ", ""), "hex"));

/** A SEQUENCE of indefinite length, which holds an INTEGER and such a SEQUENCE of an OCTET STRING (X.690 8.1.3.6). */
export const INDEFINITE = {
  hex: "30 80 02 01 05 30 80 04 01 61 00 00 00 00",
  rows: [
    { offset: 0, header: 2, length: null, depth: 0, number: 16 },
    { offset: 2, header: 2, length: 1, depth: 1, number: 2 },
    { offset: 5, header: 2, length: null, depth: 1, number: 16 },
    { offset: 7, header: 2, length: 1, depth: 2, number: 4 },
  ],
};

/**
 * Elements with these rows, and with texts by the name of the call. As the module does, a value is written after a space.
 * `length` is null if it is indefinite.
 */
export function elementsOf({ hex, rows, texts = {}, ...others }) {
  const textOf = (name, number) => texts[name]?.[number] ?? "";
  const spaced = (text) => text && ` ${text}`;
  return {
    octets: octetsOf(hex),
    count: rows.length,
    outcome: { isRefused: false, place: 0, depth: 0 },
    isDer: false,
    isBer: true,
    fields: { type: "", names: [] },
    row: (number) => rowOf(rows[number]),
    depthOf: (number) => rows[number].depth,
    offsetOf: (number) => rows[number].offset,
    nameOf: (number) => textOf("name", number),
    fieldOf: (number) => textOf("field", number),
    pathOf: (number) => textOf("path", number),
    remarkOf: (number) => textOf("remark", number),
    lineOf: (number, isFull) => textOf(isFull ? "wholeLine" : "line", number),
    valueOf: (number, isFull) => spaced(textOf(isFull ? "wholeValue" : "value", number)),
    contentOf: ({ offset, header, length }) => octetsOf(hex).subarray(offset + header, offset + header + length),
    ...others,
  };
}

function rowOf({ length, ...row }) {
  const isConstructed = row.number === 16;
  const others = { tagClass: 0, isConstructed, holds: "", isMarked: false };
  return { ...others, ...row, length: length ?? 0, isDefinite: length !== null };
}

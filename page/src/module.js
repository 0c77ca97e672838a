// Calls the reader, which is compiled to WebAssembly. The build for 64-bit memory and the one for 32 bits take the same
// numbers: each pointer and each length crosses as a BigInt.

const PAGE = 65536;
/** The octets of a row, of an outcome and of a block, and where their fields are (crates/dumarewhi_page/src/content). */
const ROW = 64;
const OUTCOME = 32;
const BLOCK = 40;
/** The forms of inputs, and why there is none, by their numbers (crates/dumarewhi_page/src/content/input.rt). */
export const FORMS = { octets: 0, pem: 1, digits: 2 };
export const ERRORS = {
  looksLike: 10,
  digits: 11,
  base64: 12,
  noBlock: 13,
  noEnd: 14,
  labelsDiffer: 15,
  encrypted: 16,
  outOfMemory: 17,
};
export const BER = 0;
export const DER = 1;
/** The parts of a refusal. */
const WHOLE = 0;
const CAUSE = 1;
const PATH = 2;

const decoder = new TextDecoder();

export class Reader {
  constructor(instance, bits) {
    this.calls = instance.exports;
    this.memory = instance.exports.memory;
    this.bits = bits;
    // The library allocates nothing, so the memory after its own pages is free for what it reads and writes.
    this.start = this.memory.buffer.byteLength;
    this.clear();
  }

  /** The first of these builds that the browser takes. */
  static async load(builds) {
    for (const [bits, octets] of builds) {
      try {
        const { instance } = await WebAssembly.instantiate(octets, {});
        return new Reader(instance, bits);
      } catch (fault) {
        if (bits === builds[builds.length - 1][0]) throw fault;
      }
    }
  }

  /** Gives up all that was read. */
  clear() {
    this.end = this.start;
    this.room = { at: 0, size: 0 };
    this.room = { at: this.take(PAGE), size: PAGE };
    this.outcome = this.take(OUTCOME);
  }

  /** Takes memory for so many octets, and returns where it begins. */
  take(octets) {
    const at = this.end;
    this.end = Math.ceil((at + octets + 1) / 16) * 16;
    const pages = Math.ceil((this.end - this.memory.buffer.byteLength) / PAGE);
    if (pages > 0) {
      try {
        this.memory.grow(pages);
      } catch (fault) {
        if (!(fault instanceof TypeError)) throw fault;
        this.memory.grow(BigInt(pages));
      }
    }
    return at;
  }

  get view() {
    if (this.lastView?.buffer !== this.memory.buffer) this.lastView = new DataView(this.memory.buffer);
    return this.lastView;
  }

  size(at) {
    return Number(this.view.getBigUint64(at, true));
  }

  /** Copies octets to memory, and returns where they are and how many, as a call takes them. */
  put(octets) {
    const at = this.take(octets.length);
    new Uint8Array(this.memory.buffer).set(octets, at);
    return [BigInt(at), BigInt(octets.length)];
  }

  /** A copy of octets in memory. */
  copy(at, length) {
    return new Uint8Array(this.memory.buffer, at, length).slice();
  }

  /** The number of the form of an input, or of why it has none. */
  formOf(octets) {
    return this.calls.page_form(...this.put(octets));
  }

  /** What an input of another kind is, as `a zip file`. */
  kindOf(octets) {
    const input = this.put(octets);
    return this.text((at, room) => this.calls.page_kind(...input, at, room));
  }

  /** Buffers for the digits or the characters of a text, and for its octets. */
  buffersFor(length) {
    const size = 2 * length + 16;
    return [0, 1].flatMap(() => [BigInt(this.take(size)), BigInt(size)]);
  }

  /** The octets of digits or of base64, or the number of the error. */
  decode(text, isDigits) {
    const call = isDigits ? this.calls.page_digits : this.calls.page_base64;
    const buffers = this.buffersFor(text.length);
    const fault = call(...this.put(text), ...buffers, BigInt(this.outcome));
    return fault === 0 ? { octets: this.copy(Number(buffers[2]), this.size(this.outcome)) } : { fault };
  }

  /** The blocks of PEM in a text: the label of each, and its octets or the number of the error. */
  blocksOf(text) {
    const blocks = [];
    const block = this.take(BLOCK);
    const buffers = this.buffersFor(text.length);
    let rest = this.put(text);
    for (;;) {
      // Empty slices, which a call without a block leaves.
      for (const at of [block, block + 16]) {
        this.view.setBigUint64(at, rest[0], true);
        this.view.setBigUint64(at + 8, 0n, true);
      }
      const fault = this.calls.page_block(...rest, ...buffers, BigInt(block));
      if (fault === ERRORS.noBlock) return blocks;
      const label = decoder.decode(this.copy(this.size(block), this.size(block + 8)));
      const found = fault === 0 ? { octets: this.copy(Number(buffers[2]), this.size(block + 32)) } : { fault };
      blocks.push({ label, ...found });
      rest = [BigInt(this.size(block + 16)), BigInt(this.size(block + 24))];
    }
  }

  /** Reads the elements of octets. */
  read(octets) {
    return new Elements(this, octets);
  }

  /** The text that a call writes to a buffer, which it gets last. The call returns the text's length. */
  text(call) {
    let length = Number(call(BigInt(this.room.at), BigInt(this.room.size)));
    if (length > this.room.size) {
      this.room = { at: this.take(2 * length), size: 2 * length };
      length = Number(call(BigInt(this.room.at), BigInt(this.room.size)));
    }
    return decoder.decode(new Uint8Array(this.memory.buffer, this.room.at, length));
  }
}

/** The fields of the row at a place in memory. */
export function rowIn(view, at) {
  const sizeAt = (place) => Number(view.getBigUint64(at + place, true));
  return {
    offset: sizeAt(0),
    header: sizeAt(8),
    length: sizeAt(16),
    depth: sizeAt(24),
    index: sizeAt(32),
    around: sizeAt(40),
    number: view.getUint32(at + 48, true),
    tagClass: view.getUint8(at + 52),
    isConstructed: view.getUint8(at + 53) === 1,
    isDefinite: view.getUint8(at + 54) === 1,
    holds: ["", "DER", "BER"][view.getUint8(at + 55)],
    isMarked: view.getUint8(at + 56) === 1,
  };
}

/** The elements of an input, in preorder. */
export class Elements {
  constructor(reader, octets) {
    this.reader = reader;
    this.octets = octets;
    this.input = reader.put(octets);
    this.rows = 0;
    const counted = this.list(BER, 0);
    this.rows = reader.take(counted.rows * ROW);
    this.outcome = this.list(BER, counted.rows);
    this.count = this.outcome.rows;
    this.isDer = this.reader.calls.page_is_elements(...this.input, DER) === 1;
    this.isBer = this.isDer || this.reader.calls.page_is_elements(...this.input, BER) === 1;
    this.derOutcome = this.isDer ? null : this.list(DER, 0);
  }

  /** Lists the elements by these rules, to as many rows as there is room for. */
  list(rules, room) {
    const { calls, outcome } = this.reader;
    const at = this.rows === 0 ? outcome : this.rows;
    calls.page_list(...this.input, rules, BigInt(at), BigInt(room), BigInt(outcome));
    const found = this.reader.view;
    return {
      rows: this.reader.size(outcome),
      place: this.reader.size(outcome + 8),
      depth: this.reader.size(outcome + 16),
      isRefused: found.getUint32(outcome + 24, true) !== 0,
    };
  }

  /** The fields of a row. */
  row(number) {
    return rowIn(this.reader.view, this.rows + number * ROW);
  }

  depthOf(number) {
    return this.reader.size(this.rows + number * ROW + 24);
  }

  offsetOf(number) {
    return this.reader.size(this.rows + number * ROW);
  }

  nameOf(number) {
    return this.textOf("page_name", number, []);
  }

  valueOf(number, full) {
    return this.textOf("page_value", number, this.input, [full ? 1 : 0]);
  }

  remarkOf(number) {
    return this.textOf("page_remark", number, this.input);
  }

  lineOf(number, full) {
    return this.textOf("page_line", number, this.input, [full ? 1 : 0]);
  }

  /** The text that a call writes of a row. */
  textOf(call, number, before, after = []) {
    const row = BigInt(this.rows + number * ROW);
    return this.reader.text((at, room) => this.reader.calls[call](...before, row, ...after, at, room));
  }

  /** The path from the outermost element to a row's. */
  pathOf(number) {
    const rows = [BigInt(this.rows), BigInt(this.count)];
    return this.reader.text((at, room) => this.reader.calls.page_path(...rows, BigInt(number), at, room));
  }

  /** What the input is, in words, at a time in seconds since 1970: of a certificate, a list or a request, else nothing. */
  wordsAt(seconds) {
    return this.reader.text((at, room) => this.reader.calls.page_shown(...this.input, BigInt(seconds), at, room));
  }

  /** The known type that the input is of, and the names of the elements in it. Empty if it is of none. */
  get fields() {
    if (!this.lastFields) {
      const text = this.reader.text((at, room) => this.reader.calls.page_fields(...this.input, at, room));
      const [type, ...names] = text.split("\n");
      this.lastFields = { type, names };
    }
    return this.lastFields;
  }

  /** The name of the field that a row is, or nothing. */
  fieldOf(number) {
    return this.fields.names[number] ?? "";
  }

  /** Why these rules refuse the input: all that `der` says of it, the cause, or the path. */
  refusalOf(rules, part) {
    return this.reader.text((at, room) => this.reader.calls.page_refusal(...this.input, rules, part, at, room));
  }

  faultOf(rules) {
    return this.refusalOf(rules, WHOLE);
  }

  causeOf(rules) {
    return this.refusalOf(rules, CAUSE);
  }

  refusedPathOf(rules) {
    return this.refusalOf(rules, PATH);
  }

  /** The octets of the same values by DER, or why there are none. */
  canonical() {
    const { calls } = this.reader;
    let room = this.octets.length + 16;
    for (;;) {
      const out = this.reader.take(room);
      const buffer = [BigInt(out), BigInt(room)];
      if (calls.page_canonical(...this.input, ...buffer, BigInt(this.reader.outcome)) !== 0) {
        const write = (at, length) => calls.page_canonical_fault(...this.input, ...buffer, at, length);
        return { fault: this.reader.text(write) };
      }
      const needed = this.reader.size(this.reader.outcome);
      if (needed <= room) return { octets: new Uint8Array(this.reader.memory.buffer, out, needed).slice() };
      room = needed;
    }
  }

  /** The content octets of a row whose length is definite, as far as they are there. */
  contentOf(row) {
    const begin = row.offset + row.header;
    return this.octets.subarray(begin, begin + row.length);
  }
}

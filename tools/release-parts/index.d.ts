/** An element of BER or DER (X.690 8.1). */
export interface Element {
  /** Where the identifier octets begin in the input. */
  offset: number;
  /** The number of octets of the header: identifier and length. */
  header: number;
  /** The number of content octets, or null if the length is indefinite (X.690 8.1.3.6). */
  length: number | null;
  /** How many elements are around it. */
  depth: number;
  class: "universal" | "application" | "context-specific" | "private";
  /** The tag number. */
  tag: number;
  constructed: boolean;
  /** The name of its type, as "OBJECT IDENTIFIER", or its tag, as "[0]". */
  type: string;
  /** The value as `der tree --full` prints it: a text in quotes, an identifier with its name. */
  value: string;
  /** The content octets: a view of the input, and no copy. */
  content: Uint8Array;
  /** The elements inside it, also those of a string whose content is one element of DER. */
  children: Element[];
}

/** Octets that aren't what they were read as. */
export class DerError extends Error {
  constructor(message: string, offset: number);
  /** Where the element begins that breaks a rule, or where the input ends that is cut short. */
  offset: number;
}

/** The elements that octets are by DER, one after another. Throws a DerError if they aren't that. */
export function parseDer(octets: Uint8Array): Element[];

/** The elements that octets are by BER, one after another. Throws a DerError if they aren't that. */
export function parseBer(octets: Uint8Array): Element[];

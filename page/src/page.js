// The page: from an input to the tree, the octets and the outcome.
import { Details } from "./details.js";
import { documentsOfFile, documentsOfText, FormError } from "./forms.js";
import { ELEMENT, Items, REFUSAL } from "./items.js";
import { placesOf, rangeOf } from "./marks.js";
import { Reader } from "./module.js";
import { base64Of, counted, hexLinesOf, hexOf, linkTextOf, octetsOfBase64, pemOf } from "./octets.js";
import { nameOf, outcomeOf } from "./texts.js";
import { Tree } from "./tree.js";
import { View } from "./view.js";

/** Links with more characters than this are refused by some programs that carry them. */
const GREATEST_LINK = 30000;

/** A text that is longer isn't read again at each key. */
const LONG_TEXT = 200000;

const byId = (id) => document.getElementById(id);

class Page {
  constructor(reader) {
    this.reader = reader;
    this.documents = [];
    this.items = null;
    this.shown = -1;
    this.tree = new Tree(byId("tree"), {
      selected: (item) => this.select(item),
      pointed: (item) => this.point(item),
    });
    this.view = new View(byId("octets"), {
      selected: (offset) => this.selectOctet(offset),
      pointed: (offset) => this.point(offset < 0 ? -1 : this.items.at(this.shown, offset)),
    });
    this.details = new Details(byId("details"));
  }

  /** Reads a text. */
  openText(text, name) {
    this.open(() => documentsOfText(this.reader, text, name));
  }

  /** Reads octets, as those of a file. */
  openOctets(name, octets) {
    this.open(() => documentsOfFile(this.reader, name, octets));
  }

  open(find) {
    try {
      this.show(find());
    } catch (fault) {
      if (!(fault instanceof FormError)) throw fault;
      this.show([]);
      this.say("refused", fault.message);
    }
  }

  show(documents) {
    this.reader.clear();
    this.documents = documents;
    for (const document of documents) {
      if (document.octets) document.elements = this.reader.read(document.octets);
    }
    this.items = new Items(documents);
    this.shown = -1;
    document.body.classList.toggle("loaded", documents.length > 0);
    byId("clear").hidden = documents.length === 0;
    byId("canon").hidden = true;
    byId("words").hidden = true;
    byId("copied").textContent = "";
    this.tree.show(this.items);
    this.details.clear();
    this.say("", "");
    if (documents.length > 0) this.showDocument(0);
  }

  /** Shows the octets and the outcome of a document. */
  showDocument(number) {
    if (number === this.shown) return;
    this.shown = number;
    const { octets, elements } = this.documents[number];
    this.view.show(octets ?? new Uint8Array());
    byId("tree-title").textContent = `Elements of ${nameOf(this.documents[number])}`;
    if (elements) this.view.mark(placesOf(elements));
    byId("canon").hidden = true;
    this.sayOutcome(number);
    this.sayWords(elements);
  }

  /** Shows the summary of a certificate, CRL or certification request. */
  sayWords(elements) {
    const words = elements?.wordsAt(Math.floor(Date.now() / 1000)) ?? "";
    byId("words").hidden = words === "";
    byId("words-text").textContent = words;
  }

  select(item) {
    this.showDocument(this.items.document[item]);
    const isElement = this.items.kind[item] === ELEMENT;
    byId("copied").textContent = "";
    this.view.mark({ selected: isElement ? rangeOf(this.items, item) : null });
    if (isElement) this.view.reveal(this.items.rowOf(item).offset);
    if (this.items.kind[item] === REFUSAL) this.view.reveal(this.items.elementsOf(item).outcome.place);
    this.details.show(this.items, item);
  }

  selectOctet(offset) {
    const item = this.items.at(this.shown, offset);
    if (item >= 0 && item !== this.tree.item) this.tree.select(item);
  }

  point(item) {
    if (item === this.tree.pointedAt) return;
    this.tree.point(item);
    const isHere = item >= 0 && this.items.kind[item] === ELEMENT && this.items.document[item] === this.shown;
    this.view.mark({ pointed: isHere ? rangeOf(this.items, item) : null });
  }

  /** Says what a document is. */
  sayOutcome(number) {
    const { kind, text, place } = outcomeOf(this.documents, number);
    this.say(kind, text);
    if (place !== undefined) this.addButton(`Go to offset ${place}`, () => this.goTo(place, kind === "refused"));
    if (kind === "ber") this.addButton("Show as DER", () => this.showCanonical(this.documents[number].elements));
  }

  /** Shows the DER that has the same values. */
  showCanonical(elements) {
    const box = byId("canon");
    const found = elements.canonical();
    const text = document.createElement("p");
    box.replaceChildren(text);
    box.hidden = false;
    if (!found.octets) {
      text.textContent = `DER has no form of this: ${found.fault}.`;
      return;
    }
    text.textContent = `As DER it has ${counted(found.octets.length, "octet")}:`;
    const digits = document.createElement("pre");
    digits.tabIndex = 0;
    digits.textContent = hexLinesOf(found.octets.subarray(0, 4096)) + (found.octets.length > 4096 ? "\n..." : "");
    box.append(digits);
    const label = this.documents[this.shown].label || "DATA";
    const copies = { Hex: hexLinesOf, Base64: base64Of, PEM: (octets) => pemOf(label, octets) };
    for (const [name, textOf] of Object.entries(copies)) {
      this.addButton(`Copy as ${name}`, () => this.copy(textOf(found.octets)), box);
    }
    this.addButton("Open it", () => this.show([{ name: "as DER", label, octets: found.octets }]), box);
    this.addButton("Close", () => (box.hidden = true), box);
  }

  /** Goes to an offset of the document that is shown. */
  goTo(offset, isRefusal) {
    const item = isRefusal ? this.refusalItem() : this.items.at(this.shown, offset);
    if (item >= 0) this.tree.select(item);
    this.view.reveal(offset);
    byId("tree").focus({ preventScroll: true });
  }

  refusalItem() {
    for (let item = this.documents[this.shown].begin; item < this.items.count; item++) {
      if (this.items.kind[item] === REFUSAL) return item;
    }
    return -1;
  }

  say(kind, text) {
    const box = byId("outcome");
    box.className = kind;
    const sentence = document.createElement("p");
    sentence.textContent = text;
    box.replaceChildren(sentence);
  }

  addButton(text, run, box = byId("outcome")) {
    const button = document.createElement("button");
    button.type = "button";
    button.textContent = text;
    button.addEventListener("click", run);
    box.append(button);
  }

  /** The text that is copied: of the selected element or document, of an element's content, or of the whole input. */
  textToCopy(kind, scope) {
    const item = scope === "input" ? -1 : this.tree.item;
    const isElement = item >= 0 && this.items.kind[item] === ELEMENT;
    if (kind === "link") return this.link();
    if (kind === "tree") return this.items.textOf(item);
    if (kind === "path") return isElement ? this.items.elementsOf(item).pathOf(this.items.row[item]) : "";
    const documents = item < 0 ? this.documents : [this.items.documentOf(item)];
    const parts = isElement ? [this.partOf(item, scope)] : documents.filter((document) => document.octets);
    const texts = {
      hex: ({ octets }) => hexOf(octets, " "),
      base64: ({ octets }) => base64Of(octets),
      pem: ({ octets, label }) => pemOf(label || "DATA", octets),
    };
    return parts.map(texts[kind]).join(kind === "pem" ? "" : "\n");
  }

  partOf(item, scope) {
    const { begin, content, contentEnd, end } = rangeOf(this.items, item);
    const { octets } = this.items.elementsOf(item);
    return { octets: scope === "content" ? octets.subarray(content, contentEnd) : octets.subarray(begin, end) };
  }

  /** An address that has the input after its #, so that nothing is sent. */
  link() {
    const texts = this.documents.filter((document) => document.octets).map(({ octets }) => linkTextOf(octets));
    return `${location.href.split("#")[0]}#der=${texts.join(".")}`;
  }

  async copy(text) {
    const said = byId("copied");
    this.lastCopied = text;
    try {
      await navigator.clipboard.writeText(text);
    } catch {
      if (!copyBySelection(text)) {
        said.textContent = "The browser doesn't allow it.";
        return;
      }
    }
    said.textContent = `Copied ${counted(text.length, "character")}.`;
  }

  copyAs(kind) {
    const text = this.textToCopy(kind, byId("scope").value);
    const said = byId("copied");
    if (text === "") said.textContent = "Select an element first.";
    else if (kind === "link" && text.length > GREATEST_LINK) said.textContent = "The input is too long for a link.";
    else this.copy(text);
  }

  /** Reads what a link carries after its #: what `link` writes, or a text in any form. */
  openHash() {
    const text = location.hash.slice(1);
    if (text === "") return;
    const parts = /^der=[\w.-]*$/.test(text) ? text.slice(4).split(".").map(octetsOfBase64) : [null];
    if (parts.includes(null)) this.openText(decodeLink(text), "link");
    else this.show(parts.map((octets) => ({ name: "link", label: "", octets })));
  }

  clear() {
    byId("text").value = "";
    this.show([]);
    if (location.hash !== "") location.hash = "";
    byId("text").focus();
  }
}

function decodeLink(text) {
  try {
    return decodeURIComponent(text);
  } catch {
    return text;
  }
}

/** Copies a text where the browser has no clipboard for the page. */
function copyBySelection(text) {
  const area = document.createElement("textarea");
  area.value = text;
  document.body.append(area);
  area.select();
  const isCopied = document.execCommand("copy");
  area.remove();
  return isCopied;
}

function moduleOf(id) {
  return octetsOfBase64(byId(id).textContent.trim());
}

/** The builds of the reader, the one for 64-bit memory first. */
function builds() {
  const all = [[64, moduleOf("module-64")], [32, moduleOf("module-32")]];
  const wanted = new URLSearchParams(location.search).get("build");
  return wanted ? all.filter(([bits]) => String(bits) === wanted) : all;
}

function addExamples(page) {
  for (const { name, text, data } of JSON.parse(byId("example-data").textContent)) {
    const run = () => {
      byId("text").value = "";
      page.openOctets(name, octetsOfBase64(data));
    };
    page.addButton(text, run, byId("examples"));
  }
}

async function openFiles(page, files) {
  const read = await Promise.all([...files].map(async (file) => [file.name, new Uint8Array(await file.arrayBuffer())]));
  byId("text").value = "";
  page.open(() => read.flatMap(([name, octets]) => documentsOrFault(page.reader, name, octets, read.length)));
}

/** Of one file the fault is a sentence, and of several it is shown at that file. */
function documentsOrFault(reader, name, octets, count) {
  try {
    return documentsOfFile(reader, name, octets);
  } catch (fault) {
    if (count === 1 || !(fault instanceof FormError)) throw fault;
    return [{ name, label: "", error: fault.message }];
  }
}

function listen(page) {
  const text = byId("text");
  let waiting = 0;
  text.addEventListener("input", () => {
    clearTimeout(waiting);
    waiting = setTimeout(() => page.openText(text.value), text.value.length > LONG_TEXT ? 300 : 0);
  });
  byId("choose").addEventListener("click", () => byId("files").click());
  byId("files").addEventListener("change", (event) => openFiles(page, event.target.files));
  byId("clear").addEventListener("click", () => page.clear());
  for (const [id, isOpen] of [["open-all", true], ["close-all", false]]) {
    byId(id).addEventListener("click", () => {
      page.items.openAll(isOpen);
      page.tree.refresh();
    });
  }
  for (const button of document.querySelectorAll("[data-copy]")) {
    button.addEventListener("click", () => page.copyAs(button.dataset.copy));
  }
  byId("definition").addEventListener("click", (event) => {
    event.preventDefault();
    byId("definition-text").hidden = !byId("definition-text").hidden;
  });
  addEventListener("hashchange", () => page.openHash());
  listenToDrops(page, text);
}

function listenToDrops(page, text) {
  addEventListener("dragover", (event) => {
    event.preventDefault();
    document.body.classList.add("dragged");
  });
  addEventListener("dragleave", () => document.body.classList.remove("dragged"));
  addEventListener("drop", (event) => {
    event.preventDefault();
    document.body.classList.remove("dragged");
    const { files } = event.dataTransfer;
    if (files.length > 0) {
      openFiles(page, files);
      return;
    }
    text.value = event.dataTransfer.getData("text");
    page.openText(text.value);
  });
}

async function begin() {
  const page = new Page(await Reader.load(builds()));
  addExamples(page);
  listen(page);
  page.openHash();
  // For the console and for tests.
  window.page = page;
}

begin().catch((fault) => {
  byId("outcome").className = "refused";
  byId("outcome").textContent = `The reader doesn't run in this browser: ${fault.message}`;
});

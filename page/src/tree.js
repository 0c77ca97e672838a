// The tree of elements. The box has the focus, and names the row that is active (WAI-ARIA, tree view).
import { List } from "./list.js";
import { labelOf, partsOf } from "./texts.js";

export class Tree {
  /** `selected(item)` is called for an item that is selected, and `pointed(item)` for one under the mouse, or -1. */
  constructor(box, { selected, pointed }) {
    this.box = box;
    this.items = null;
    this.item = -1;
    this.pointedAt = -1;
    this.selected = selected;
    this.list = new List(box, (row, number) => this.draw(row, number));
    box.addEventListener("keydown", (event) => this.key(event));
    box.addEventListener("click", (event) => this.click(event));
    box.addEventListener("mousemove", (event) => pointed(this.itemOf(event.target)));
    box.addEventListener("mouseleave", () => pointed(-1));
  }

  show(items) {
    this.items = items;
    this.item = -1;
    this.box.scrollTop = 0;
    this.refresh();
  }

  refresh() {
    this.list.setCount(this.items ? this.items.shown.length : 0);
  }

  itemOf(target) {
    const row = target.closest?.("[role=treeitem]");
    return row ? Number(row.dataset.item) : -1;
  }

  click(event) {
    const item = this.itemOf(event.target);
    if (item < 0) return;
    if (event.target.classList.contains("twist")) this.toggle(item, this.items.isOpen[item] === 0);
    this.select(item);
  }

  toggle(item, isOpen) {
    if (this.items.open(item, isOpen)) this.refresh();
  }

  /** Selects an item and shows it. */
  select(item) {
    if (this.items.reveal(item)) this.refresh();
    this.item = item;
    this.list.reveal(this.items.shownAt(item));
    this.list.redraw();
    this.box.setAttribute("aria-activedescendant", `item-${item}`);
    this.selected(item);
  }

  point(item) {
    this.pointedAt = item;
    for (const row of this.list.rows) row.classList.toggle("pointed", Number(row.dataset.item) === item);
  }

  key(event) {
    if (!this.items || this.items.shown.length === 0 || event.ctrlKey || event.metaKey || event.altKey) return;
    const shown = this.items.shown;
    const at = this.item < 0 ? -1 : this.items.shownAt(this.item);
    const to = (place) => this.select(shown[Math.max(0, Math.min(shown.length - 1, place))]);
    const steps = {
      ArrowDown: () => to(at + 1),
      ArrowUp: () => to(at - 1),
      Home: () => to(0),
      End: () => to(shown.length - 1),
      PageDown: () => to(at + this.list.seen),
      PageUp: () => to(at - this.list.seen),
      ArrowRight: () => this.inwards(),
      ArrowLeft: () => this.outwards(),
      Enter: () => this.toggle(this.item, this.items.isOpen[this.item] === 0),
      " ": () => this.toggle(this.item, this.items.isOpen[this.item] === 0),
      "*": () => this.openSiblings(),
    };
    if (!steps[event.key]) return;
    event.preventDefault();
    if (this.item < 0) to(0);
    else steps[event.key]();
  }

  inwards() {
    if (!this.items.hasInside(this.item)) return;
    if (this.items.isOpen[this.item] === 0) this.toggle(this.item, true);
    else this.select(this.item + 1);
  }

  outwards() {
    if (this.items.hasInside(this.item) && this.items.isOpen[this.item] === 1) this.toggle(this.item, false);
    else if (this.items.around[this.item] >= 0) this.select(this.items.around[this.item]);
  }

  openSiblings() {
    const around = this.items.around[this.item];
    for (let item = 0; item < this.items.count; item++) {
      if (this.items.around[item] === around) this.items.isOpen[item] = 1;
    }
    this.items.show();
    this.refresh();
  }

  /** Fills a row. Texts are set as texts, and no markup is made of them. */
  draw(row, number) {
    const items = this.items;
    const item = items.shown[number];
    if (row.childElementCount === 0) this.make(row);
    row.id = `item-${item}`;
    row.dataset.item = item;
    row.className = `item ${item === this.item ? "selected" : ""} ${item === this.pointedAt ? "pointed" : ""}`;
    row.style.setProperty("--level", Math.min(items.level[item], 30));
    row.setAttribute("aria-level", items.level[item] + 1);
    row.setAttribute("aria-posinset", items.place[item]);
    row.setAttribute("aria-setsize", items.siblings(item));
    row.setAttribute("aria-selected", item === this.item);
    const twist = row.children[2];
    if (items.hasInside(item)) {
      row.setAttribute("aria-expanded", items.isOpen[item] === 1);
      twist.textContent = items.isOpen[item] === 1 ? "▾" : "▸";
    } else {
      row.removeAttribute("aria-expanded");
      twist.textContent = "";
    }
    this.fill(row, partsOf(items, item));
  }

  make(row) {
    row.setAttribute("role", "treeitem");
    for (const name of ["place", "sizes", "twist", "field", "type", "mark", "value", "remark"]) {
      const part = document.createElement("span");
      part.className = name;
      row.append(part);
    }
  }

  fill(row, parts) {
    const [place, sizes, , field, type, mark, value, remark] = row.children;
    row.classList.add(parts.kind);
    place.textContent = parts.place ?? "";
    sizes.textContent = parts.sizes ?? "";
    sizes.title = parts.sizesInWords ?? "";
    field.textContent = parts.field ?? "";
    type.textContent = parts.type;
    mark.textContent = parts.mark ?? "";
    fillValue(value, parts.value ?? "", parts.isIdentifier);
    remark.textContent = parts.remark ?? "";
    row.setAttribute("aria-label", labelOf(parts));
  }
}

/** Shows a value; of an identifier its name first. */
export function fillValue(box, text, isIdentifier) {
  const split = isIdentifier ? text.indexOf(" ") : -1;
  if (split < 0) {
    box.textContent = text;
    return;
  }
  const name = document.createElement("b");
  name.textContent = text.slice(split + 1);
  const arcs = document.createElement("i");
  arcs.textContent = text.slice(0, split);
  box.replaceChildren(name, " ", arcs);
}

// The box with what is known of the item that is selected.
import { detailsOf, textOfMore } from "./texts.js";
import { fillValue } from "./tree.js";

export class Details {
  constructor(box) {
    this.box = box;
  }

  clear() {
    this.box.replaceChildren();
  }

  /** Shows an item, with a button that shows all of a long value. */
  show(items, item, isFull = false) {
    const list = document.createElement("dl");
    for (const [name, text, kind] of detailsOf(items, item, isFull)) {
      const term = document.createElement("dt");
      term.textContent = name;
      const about = document.createElement("dd");
      about.className = kind ?? "";
      fillValue(about, text, kind === "identifier");
      list.append(term, about);
    }
    this.box.replaceChildren(list);
    const more = textOfMore(items, item, isFull);
    if (more !== "") this.addButton(more, () => this.show(items, item, true));
  }

  addButton(text, run) {
    const button = document.createElement("button");
    button.type = "button";
    button.textContent = text;
    button.addEventListener("click", run);
    this.box.append(button);
  }
}

// A list whose rows are made when they are seen.

/** Browsers take no element that is much higher than this. */
const GREATEST_HEIGHT = 8000000;

export class List {
  /** A list in a box that scrolls. `draw(row, number)` fills the element of a row. */
  constructor(box, draw) {
    this.box = box;
    this.draw = draw;
    this.count = 0;
    this.rows = [];
    this.spacer = document.createElement("div");
    this.spacer.className = "spacer";
    this.window = document.createElement("div");
    this.window.className = "window";
    for (const part of [this.spacer, this.window]) part.setAttribute("role", "none");
    this.spacer.append(this.window);
    box.append(this.spacer);
    box.addEventListener("scroll", () => this.redraw(), { passive: true });
    new ResizeObserver(() => this.redraw()).observe(box);
  }

  get height() {
    return parseFloat(getComputedStyle(this.box).getPropertyValue("--row")) || 24;
  }

  setCount(count) {
    this.count = count;
    this.redraw();
  }

  /** How many rows the box shows whole. */
  get seen() {
    return Math.max(1, Math.floor(this.box.clientHeight / this.height));
  }

  redraw() {
    const height = this.height;
    const whole = this.count * height;
    const made = Math.min(whole, GREATEST_HEIGHT);
    this.spacer.style.height = `${made}px`;
    const most = Math.max(0, made - this.box.clientHeight);
    const top = Math.min(this.box.scrollTop, most);
    // Of a list that is too high, a step of the scroll bar is several rows.
    const at = whole > made && most > 0 ? (top / most) * (whole - this.box.clientHeight) : top;
    this.first = Math.max(0, Math.floor(at / height));
    const number = Math.max(0, Math.min(this.count - this.first, Math.ceil(this.box.clientHeight / height) + 2));
    this.window.style.transform = `translateY(${top - (at - this.first * height)}px)`;
    while (this.rows.length < number) {
      const row = document.createElement("div");
      this.rows.push(row);
      this.window.append(row);
    }
    this.rows.forEach((row, k) => {
      row.hidden = k >= number;
      if (k < number) this.draw(row, this.first + k);
    });
  }

  /** Scrolls so that a row is seen: at the nearest edge, or in the middle if it is far away. */
  reveal(number) {
    const height = this.height;
    const whole = this.count * height;
    const room = this.box.clientHeight;
    const made = Math.min(whole, GREATEST_HEIGHT);
    const factor = whole > made ? (made - room) / (whole - room) : 1;
    const begin = this.box.scrollTop / factor;
    const top = number * height;
    if (top >= begin && top + height <= begin + room) return;
    const isNear = top > begin - 3 * height && top < begin + room + 3 * height;
    const to = !isNear ? top - room / 2 : top < begin ? top : top + height - room;
    this.box.scrollTop = Math.max(0, to * factor);
    this.redraw();
  }
}

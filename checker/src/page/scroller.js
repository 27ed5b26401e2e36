// Lists that hold only the lines that can be seen, so that an arena of 1,048,576 slots is as quick as a small one.

/** How far above and below what is seen lines are drawn, in pixels. */
const MARGIN = 300;
/** How high a list may stand in its box, in pixels. Browsers have an end: that of Firefox is near 17.9 million. */
const MOST_HEIGHT = 15e6;
/** How far from its ends a list that is higher than that is scrolled through as it would be if it could stand there. */
const EVEN = 1e6;
/** How many lines of a list are printed. */
const PRINTED_LINES = 300;

/** Makes an element with a class and a text. */
function element(tag, className = '', text = '') {
  const node = document.createElement(tag);
  node.className = className;
  node.textContent = text;
  return node;
}

/** A number of things, with their name. */
function counted(count, name) {
  return `${count} ${name}${count === 1 ? '' : 's'}`;
}

/**
 * A box that scrolls through lines of known heights and holds only those that can be seen. Where the lines are too high for the
 * box, so much of them is left out above what is seen, `shift`, that the box has the right share of them above and below.
 */
class Scroller {
  constructor(box, draw) {
    this.box = box;
    this.draw = draw;
    this.space = element('div', 'space');
    this.lines = [];
    this.tops = new Float64Array(1);
    this.drawn = new Map();
    Object.assign(this, { scrolled: 0, shift: 0 });
    box.append(this.space);
    box.addEventListener('scroll', () => this.follow(), { passive: true });
  }

  /** How high all lines are. */
  get height() {
    return this.tops[this.lines.length];
  }

  /** How far down the lines are scrolled. */
  get top() {
    return this.scrolled + this.shift;
  }

  /** Takes other lines. */
  set(lines) {
    this.lines = lines;
    this.tops = new Float64Array(lines.length + 1);
    lines.forEach((line, k) => (this.tops[k + 1] = this.tops[k] + line.height));
    this.space.style.height = `${Math.min(this.height, MOST_HEIGHT)}px`;
    this.clear();
    this.jump();
    this.render();
  }

  /** How far down the lines are where the box is scrolled so far down: as far, but in the middle of a high list further. */
  linesAt(scrolled) {
    const more = Math.max(0, this.height - MOST_HEIGHT);
    const middle = MOST_HEIGHT - 2 * EVEN;
    return scrolled + more * Math.min(Math.max((scrolled - EVEN) / middle, 0), 1);
  }

  /** How far down the box must be scrolled to have the lines so far down. */
  boxAt(top) {
    const more = Math.max(0, this.height - MOST_HEIGHT);
    const middle = this.height - 2 * EVEN;
    return more === 0 ? top : top - more * Math.min(Math.max((top - EVEN) / middle, 0), 1);
  }

  /** Goes to where the box is scrolled to. */
  jump() {
    this.scrolled = this.box.scrollTop;
    this.shift = this.linesAt(this.scrolled) - this.scrolled;
  }

  /** Follows the box: in the middle of a high list by small steps as far as the box goes, else to where that is. */
  follow() {
    const { scrollTop, scrollHeight, clientHeight } = this.box;
    const [step, left] = [Math.abs(scrollTop - this.scrolled), scrollHeight - clientHeight - scrollTop];
    if (step >= clientHeight || scrollTop <= 0 || left <= 1) this.jump();
    else this.scrolled = scrollTop;
    this.render();
  }

  /** Scrolls so far down the lines, or as far as they go. */
  goTo(top) {
    this.box.scrollTop = this.boxAt(Math.max(0, top));
    this.jump();
    const { scrollHeight, clientHeight } = this.box;
    // The box stops at whole pixels or at parts of them, and each may be some pixels of a high list.
    if (this.shift > 0 && this.scrolled + 1 < scrollHeight - clientHeight) this.shift = top - this.scrolled;
    this.render();
  }

  /** Takes all lines out of the document. */
  clear() {
    this.space.classList.remove('spread');
    this.space.replaceChildren();
    this.drawn.clear();
    this.drawnShift = this.shift;
  }

  /** The line at a height. */
  lineAt(height) {
    let [low, high] = [0, this.lines.length - 1];
    while (low < high) {
      const middle = (low + high + 1) >> 1;
      if (this.tops[middle] <= height) low = middle;
      else high = middle - 1;
    }
    return low;
  }

  /** Draws the lines that can be seen, and takes the others out. Those that stay are not touched. */
  render() {
    if (this.lines.length === 0) return;
    if (this.drawnShift !== this.shift) this.clear();
    const first = this.lineAt(this.top - MARGIN);
    const last = this.lineAt(this.top + this.box.clientHeight + MARGIN);
    for (const [k, node] of this.drawn) {
      if (k < first || k > last) {
        node.remove();
        this.drawn.delete(k);
      }
    }
    let following = this.space.firstChild;
    for (let k = first; k <= last; k++) {
      if (this.drawn.has(k)) following = this.drawn.get(k).nextSibling;
      else this.space.insertBefore(this.drawLine(k), following);
    }
  }

  /** Draws one line. */
  drawLine(k) {
    const node = this.draw(this.lines[k]);
    node.style.top = `${this.tops[k] - this.shift}px`;
    node.style.height = `${this.lines[k].height}px`;
    this.drawn.set(k, node);
    return node;
  }

  /** Scrolls until a line can be seen. */
  reveal(k) {
    const { clientHeight } = this.box;
    const [top, bottom] = [this.tops[k], this.tops[k + 1]];
    if (top < this.top || bottom > this.top + clientHeight) this.goTo(top - (clientHeight - (bottom - top)) / 2);
    else this.render();
  }

  /** Draws lines below each other for the printer; if there are too many those around line `k`, and says so. */
  spread(k) {
    const first = Math.max(0, Math.min(k - PRINTED_LINES / 2, this.lines.length - PRINTED_LINES));
    const last = Math.min(this.lines.length, first + PRINTED_LINES);
    this.clear();
    this.space.classList.add('spread');
    for (let line = first; line < last; line++) this.space.append(this.drawLine(line));
    if (last - first < this.lines.length) {
      this.space.append(element('p', 'cut', `Lines ${first + 1} to ${last} of ${this.lines.length} are printed.`));
    }
  }
}

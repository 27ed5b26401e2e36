// Behind src/page/scroller.js: lists of every height, in a stand-in for what they need of a browser. Each line must be seen where it is looked for, and no step may
// pass over one.

/** An element that holds others. */
class Part {
  constructor() {
    Object.assign(this, { style: {}, held: [], answers: {}, classList: { add() {}, remove() {} } });
  }

  get firstChild() {
    return this.held[0] ?? null;
  }

  get nextSibling() {
    return this.within.held[this.within.held.indexOf(this) + 1] ?? null;
  }

  append(part) {
    this.insertBefore(part, null);
  }

  insertBefore(part, following) {
    part.within = this;
    this.held.splice(following ? this.held.indexOf(following) : this.held.length, 0, part);
  }

  replaceChildren() {
    this.held = [];
  }

  remove() {
    this.within.held.splice(this.within.held.indexOf(this), 1);
  }

  addEventListener(name, answer) {
    this.answers[name] = answer;
  }
}

/** A box that is scrolled no further than what it holds is high, and shows no more than a browser does. It stops at parts of a pixel. */
class Box extends Part {
  clientHeight = 500;
  place = 0;

  get scrollHeight() {
    const height = parseFloat(this.held[0].style.height);
    if (height > 17895697) throw new Error(`no browser shows ${height} pixels`);
    return height + 4;
  }

  get last() {
    return Math.max(0, this.scrollHeight - this.clientHeight);
  }

  get scrollTop() {
    return Math.min(this.place, this.last);
  }

  set scrollTop(top) {
    this.place = Math.round(Math.min(Math.max(top, 0), this.last) * 64) / 64;
  }

  /** Scrolls as one who uses it does. */
  scroll(top) {
    this.scrollTop = top;
    this.answers.scroll();
  }
}

globalThis.document = { createElement: () => new Part() };

function hold(fact, told) {
  if (!fact) throw new Error(told);
}

/** Numbers that look random and are the same in every run. */
let bits = 7;
function below(limit) {
  bits = (Math.imul(bits, 1103515245) + 12345) >>> 0;
  return Math.floor((bits / 2 ** 32) * limit);
}

/** The lines that are seen. They must follow each other without a gap and fill the box. */
function seen({ box, space, lines, height }) {
  const tops = space.held.map((part) => [part.line, parseFloat(part.style.top) - box.scrollTop]);
  const drawn = tops.filter(([k, top]) => top + lines[k].height > 0 && top < box.clientHeight);
  drawn.forEach(([k, top], place) => {
    const [before, above] = drawn[place - 1] ?? [k - 1, top - (lines[k - 1]?.height ?? 0)];
    const joined = k === before + 1 && Math.abs(above + (lines[before]?.height ?? 0) - top) < 0.01;
    hold(joined, `line ${k} at ${top} behind ${before} at ${above}`);
  });
  const [first, last] = [drawn[0], drawn.at(-1)];
  hold(first[1] <= 0.01, `above ${first} there is nothing`);
  const end = last[1] + lines[last[0]].height;
  hold(end >= Math.min(box.clientHeight, height) - 4.01, `below ${last} there is nothing`);
  hold(space.held.length < 100, `${space.held.length} lines are drawn`);
  const isWhole = (k, top) => top >= -0.01 && top + lines[k].height <= box.clientHeight + 0.01;
  return { first: first[0], last: last[0], whole: (k) => drawn.some(([j, top]) => j === k && isWhole(k, top)) };
}

/** Tries a list of so many lines. */
function tried(count, heightOf) {
  const list = new Scroller(new Box(), (line) => Object.assign(new Part(), { line: line.k }));
  list.set(Array.from({ length: count }, (_, k) => ({ k, height: heightOf(k) })));
  const { box } = list;
  const places = [0, 1, 2, 17, count >> 1, count - 3, count - 2, count - 1].filter((k) => k >= 0 && k < count);
  for (let k = 0; k < 100; k++) places.push(below(count));
  // Each line is brought into sight, and to the top of the box where there is enough below it.
  for (const k of places) {
    list.reveal(k);
    hold(seen(list).whole(k), `line ${k} of ${count} is not seen`);
    list.goTo(list.tops[k]);
    const end = box.scrollTop >= box.last - 1;
    hold(seen(list).first === k || (end && seen(list).first < k), `line ${k} of ${count} is not the first`);
    hold(Math.abs(list.linesAt(box.scrollTop) - list.top) < 1, `the box stands elsewhere for line ${k} of ${count}`);
  }
  // From one end to the other, and anywhere: what is further down in the box is further down among the lines.
  let before = -1;
  for (let k = 0; k <= 100; k++) {
    box.scroll((box.last * k) / 100);
    hold(seen(list).first >= before, `at ${k} of 100 in ${count} lines`);
    before = seen(list).first;
  }
  hold(seen(list).last === count - 1, `the end of ${count} lines`);
  box.scroll(0);
  hold(seen(list).first === 0 && list.top === 0, `the start of ${count} lines`);
  // Small steps pass over no line, in either direction.
  for (const place of [0, 0.05, 0.3, 0.5, 0.9, 0.95, 1]) {
    box.scroll(box.last * place);
    for (const step of [120, 450, -120, -450]) {
      for (let k = 0; k < 50; k++) {
        const [{ first, last }, top, room] = [seen(list), list.top, step > 0 ? box.last - box.scrollTop : box.scrollTop];
        box.scroll(box.scrollTop + step);
        const after = seen(list);
        hold(after.first <= last + 1 && after.last >= first - 1, `a step of ${step} at ${top} of ${count} lines`);
        if (room > Math.abs(step) + 2) hold(Math.abs(list.top - top - step) < 0.02, `${step}: ${top} to ${list.top}`);
      }
    }
  }
  // Whoever goes on with small steps comes to both ends.
  for (const [step, end] of [[-450, 0], [450, count - 1]]) {
    box.scroll(box.last * (step < 0 ? 0.1 : 0.9));
    while (step < 0 ? box.scrollTop > 0 : box.scrollTop < box.last) box.scroll(box.scrollTop + step);
    const top = step < 0 ? 0 : Math.max(0, list.height + 4 - box.clientHeight);
    hold(seen(list).whole(end) && Math.abs(list.top - top) < 1, `line ${end} of ${count} is not reached`);
  }
  // Other lines may be fewer.
  list.set(list.lines.slice(0, 3));
  hold(seen(list).first === 0, 'three lines');
}

// The third is the lowest that is too high for the box, and the fourth is that of an arena of closed links.
for (const count of [1, 9, 267_858, 1_048_577]) {
  tried(count, () => 56);
  tried(count, (k) => (k === 0 ? 34 : 40 + (k % 7) * 11));
}
console.log('every line is seen');

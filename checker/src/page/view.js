// What is drawn of an arena: the list of its slots, and the list of its broken slots.

/** How wide a list is printed, in pixels. */
const PRINTED_WIDTH = 680;
/** How much room is between lines, and between boxes that no pointer connects, in pixels; the latter as in page.css. */
const LINE_GAP = 12;
const PACKED_GAP = 8;
/** How high a longer list stays, however much stands above it, in pixels. */
const LEAST_HEIGHT = 200;
/** How high a list is from which on buttons lead to its parts, in pixels. */
const NAV_FROM = 480;

/** The widths of letters in a font, each measured once, since there may be a sentence for each slot. */
class Letters {
  constructor({ fontSize, fontFamily }) {
    this.pen = document.createElement('canvas').getContext('2d');
    this.pen.font = `${fontSize} ${fontFamily}`;
    this.widths = new Map();
  }

  /** How wide a word is. */
  width(word) {
    let width = 0;
    for (const letter of word) width += this.widths.get(letter) ?? this.measure(letter);
    return width;
  }

  /** Measures a letter. */
  measure(letter) {
    const { width } = this.pen.measureText(letter);
    this.widths.set(letter, width);
    return width;
  }

  /** On how many lines of a width a sentence stands. A longer word is broken. */
  lines(sentence, width) {
    let [lines, used] = [1, 0];
    for (const word of sentence.split(' ')) {
      const wide = this.width(word);
      if (used > 0 && used + wide > width) {
        lines += 1;
        used = 0;
      }
      lines += Math.floor(wide / width);
      used += wide % width + this.width(' ');
    }
    return lines;
  }
}

/** A panel of the page: an arena with its list of slots, its list of broken slots, and the chosen slot. */
class View {
  constructor(data, k) {
    this.arena = new Arena(data);
    this.number = k + 1;
    this.section = document.getElementById(`panel-${this.number}`);
    this.chosen = 0;
    this.hits = new Set();
    this.whereTo = null;
    const part = (name) => this.section.querySelector(name);
    this.list = new Scroller(part('.list'), (line) => this.drawLine(line));
    this.faults = new Scroller(part('.faults'), (line) => this.drawFault(line));
    this.faults.box.hidden = this.arena.faults.length === 0;
    this.parts = PARTS.map(() => []);
    for (const row of this.arena.rows) this.parts[row.kind].push(row);
    this.card = new Card(this, part('.card'));
    this.makeNav(part('nav'));
    this.listen();
    if (this.arena.rows.length === 0) this.sayEmpty();
  }

  /** Says that there is nothing to show. */
  sayEmpty() {
    this.list.box.hidden = true;
    this.card.node.hidden = true;
    this.section.append(element('p', 'none', 'There is no slot in the stack.'));
  }

  /** Makes the buttons that lead to the parts of the list. */
  makeNav(nav) {
    this.nav = PARTS.map((name, part) => {
      const button = element('button', '', name);
      button.append(element('b', '', this.countOf(part)));
      button.hidden = this.parts[part].length === 0;
      button.addEventListener('click', () => this.list.goTo(this.list.tops[this.partLines[part]]));
      nav.append(button);
      return button;
    });
  }

  /** How many chains, lone links or free slots a part has. */
  countOf(part) {
    const rows = this.parts[part];
    return part === OPEN || part === CLOSED ? rows.length : rows.reduce((sum, row) => sum + row.length, 0);
  }

  /** Answers clicks and keys. */
  listen() {
    this.list.box.addEventListener('scroll', () => this.markPart(), { passive: true });
    this.list.box.addEventListener('click', (event) => this.click(event));
    this.list.box.addEventListener('keydown', (event) => this.key(event));
    this.faults.box.addEventListener('click', (event) => {
      this.click(event);
      this.bringIntoView();
    });
    this.faults.box.addEventListener('keydown', (event) => this.faultKey(event));
  }

  /** Chooses the slot that was clicked. */
  click(event) {
    const slot = Number(event.target.closest('[data-slot]')?.dataset.slot);
    if (this.arena.has(slot)) choose(this, slot);
  }

  /** Follows the chain with the arrow keys, Home and End. */
  key(event) {
    const row = this.arena.row(this.chosen);
    const to = (place) => isPacked(row) || choose(this, this.arena.slotAt(row, place));
    const go = {
      ArrowLeft: () => this.card.follow('prev'),
      ArrowRight: () => this.card.follow('next'),
      Home: () => to(0),
      End: () => to(row.length - 1),
    }[event.key];
    if (!go || event.ctrlKey || event.metaKey || event.altKey || this.arena.order.length === 0) return;
    event.preventDefault();
    if (this.chosen === 0) choose(this, this.firstSeen());
    else go();
  }

  /** Goes from one broken slot to the other with the arrow keys. */
  faultKey(event) {
    if (event.key !== 'ArrowUp' && event.key !== 'ArrowDown') return;
    event.preventDefault();
    const { faults } = this.arena;
    const to = event.key === 'ArrowDown'
      ? faults.find((fault) => fault.slot > this.chosen)
      : faults.findLast((fault) => fault.slot < this.chosen);
    if (!to || !this.arena.has(to.slot)) return;
    choose(this, to.slot);
    this.bringIntoView();
  }

  /** Scrolls the page until the chosen slot can be seen, where the list is not all in the window. */
  bringIntoView() {
    document.getElementById(`panel-${this.number}-slot-${this.chosen}`)?.scrollIntoView({ block: 'nearest' });
  }

  /** The first slot of the list that can be seen. */
  firstSeen() {
    const box = this.list.box.getBoundingClientRect();
    const boxes = [...this.list.space.querySelectorAll('.box')];
    const seen = boxes.find((node) => node.getBoundingClientRect().top >= box.top);
    return Number((seen ?? boxes[0]).dataset.slot);
  }

  /** Lays the list out for a width, and keeps its place. */
  lay(width = this.list.space.clientWidth || this.faults.space.clientWidth) {
    const { list } = this;
    const seen = list.lines[list.lineAt(list.top)];
    this.width = width;
    this.measure();
    list.set(this.makeLines());
    this.faults.set(this.makeFaultLines());
    if (seen?.row && list.top > 0) list.goTo(list.tops[this.lineOf(seen.row, seen.from)]);
    list.box.style.minHeight = `${Math.min(list.height, LEAST_HEIGHT)}px`;
    this.nav[0].parentNode.hidden = list.height < NAV_FROM;
    this.markPart();
  }

  /** Measures a line of one box with the widest words that there are. */
  measure() {
    const line = element('div', 'line first');
    const [gutter, box, arrow] = [element('div', 'gutter'), this.widestBox(), element('i', 'arrow')];
    const heading = element('h3', '', PARTS[0]);
    const fault = this.drawFault({ fault: { slot: this.arena.faults.at(-1)?.slot ?? 0, sentence: 'slot' } });
    fault.classList.add('widest');
    line.append(gutter, box, arrow);
    this.list.space.append(line, heading);
    this.faults.space.append(fault);
    const width = (node) => node.getBoundingClientRect().width;
    const height = (node) => node.getBoundingClientRect().height;
    this.size = {
      gutter: width(gutter),
      box: Math.ceil(width(box)),
      arrow: width(arrow),
      line: Math.ceil(height(box)) + LINE_GAP,
      heading: Math.ceil(height(heading)),
      fault: height(fault),
      faultMargin: width(fault) - width(fault.lastChild),
      letters: new Letters(getComputedStyle(fault)),
    };
    this.list.box.style.setProperty('--box-width', `${this.size.box}px`);
    this.list.box.style.setProperty('--box-height', `${this.size.line - LINE_GAP}px`);
    this.faults.box.style.setProperty('--slot-width', `${width(fault.firstChild)}px`);
    for (const node of [line, heading, fault]) node.remove();
  }

  /** A box with the largest word of each kind. */
  widestBox() {
    const { arena } = this;
    const most = { slot: arena.stack, payload: 0, generation: 0, tie: 0 };
    for (let slot = 1; slot <= arena.stack; slot++) {
      if (!arena.isLink(slot)) continue;
      most.payload = Math.max(most.payload, arena.word('payload', slot));
      if (arena.isOtherGeneration(slot)) most.generation = Math.max(most.generation, arena.word('generation', slot));
      most.tie = Math.max(most.tie, arena.whereFrom[slot - 1] ?? 0, this.whereTo?.[slot] ?? 0);
    }
    const node = element('div', 'box widest');
    const missing = arena.columns.payload.length < arena.stack && most.payload < 1e7;
    node.append(element('b', '', most.slot), element('span', '', missing ? 'missing' : most.payload));
    if (most.generation > 0) node.append(element('small', '', `gen ${most.generation}`));
    if (most.tie > 0) node.append(element('small', '', `from ${most.tie}`));
    if (arena.dueCount > 0) node.append(element('small', 'due-number', `due ${arena.dueCount}`));
    return node;
  }

  /** The lines of the list: for each part a heading and its rows. */
  makeLines() {
    const { gutter, box, arrow, heading } = this.size;
    this.perLine = Math.max(1, Math.floor((this.width - gutter) / (box + arrow)));
    this.packed = Math.max(1, Math.floor((this.width + PACKED_GAP) / (box + PACKED_GAP)));
    this.partLines = [];
    const lines = [];
    this.parts.forEach((rows, part) => {
      this.partLines[part] = lines.length;
      if (rows.length > 0) lines.push({ part, height: heading });
      for (const row of rows) this.breakRow(row, part, lines);
    });
    return lines;
  }

  /** Adds the lines of a row. */
  breakRow(row, part, lines) {
    row.line = lines.length;
    const [cells, most] = [cellsOf(row), this.mostOf(row)];
    for (let from = 0; from < cells; from += most) {
      lines.push({ part, row, from, to: Math.min(cells, from + most), height: this.size.line });
    }
  }

  /** How many cells of a row stand on a line. */
  mostOf(row) {
    return isPacked(row) ? this.packed : this.perLine;
  }

  /** The line on which a cell of a row stands. */
  lineOf(row, cell) {
    return row.line + Math.floor(cell / this.mostOf(row));
  }

  /** The lines of the broken slots, high enough for their sentences. */
  makeFaultLines() {
    const { fault: height, faultMargin, letters } = this.size;
    const width = printing ? this.width : this.faults.space.clientWidth;
    // A browser may set letters a little wider than it measures them, so some room is left; and a line is never too narrow.
    const room = Math.max(60, (width - faultMargin) * 0.995);
    return this.arena.faults.map((fault) => ({ fault, height: height * letters.lines(fault.sentence, room) }));
  }

  /** Draws a line of the list. */
  drawLine(line) {
    if (!line.row) return this.drawHeading(line.part);
    if (isPacked(line.row)) return this.drawPacked(line);
    return this.drawChain(line);
  }

  /** Draws the heading of a part. */
  drawHeading(part) {
    const node = element('h3', '', PARTS[part]);
    node.setAttribute('role', 'presentation');
    node.append(element('b', '', this.countOf(part)));
    return node;
  }

  /** Draws slots between which no pointer leads. */
  drawPacked({ row, from, to }) {
    const node = element('div', 'line packed');
    for (let place = from; place < to; place++) node.append(this.drawBox(this.arena.slotAt(row, place)));
    return node;
  }

  /** Draws a line of a row, with arrows between its cells. */
  drawChain({ row, from, to }) {
    const node = element('div', from === 0 ? 'line first' : 'line');
    const name = ['open chain', 'closed chain', 'freelist'][row.kind];
    node.setAttribute('role', 'group');
    node.setAttribute('aria-label', `${name} of ${counted(row.length, row.kind === FREELIST ? 'slot' : 'link')}`);
    node.append(this.drawGutter(row, from));
    for (let cell = from; cell < to; cell++) {
      node.append(this.drawCell(row, cell));
      if (cell + 1 < cellsOf(row)) node.append(this.drawArrow(row, cell));
    }
    return node;
  }

  /** Draws how long a row is, or at which place of it a further line begins. */
  drawGutter(row, from) {
    const node = element('div', 'gutter');
    const place = from - lead(row);
    if (from === 0) {
      const [count, name] = counted(row.length, 'link').split(' ');
      node.append(element('b', '', count), element('small', '', row.kind === FREELIST ? 'free' : name));
    } else if (place < row.length) {
      node.append(element('small', '', 'at'), element('b', '', place + 1));
    }
    return node;
  }

  /** Draws a cell of a row: a box, or what leads to the first or from the last one. */
  drawCell(row, cell) {
    const { arena } = this;
    const place = cell - lead(row);
    if (place < 0) {
      const prev = arena.word('prev', arena.slotAt(row, 0));
      return row.wrongPrev ? this.drawEnd('prev', prev, true) : this.drawEnd('root', null, false);
    }
    if (place < row.length) return this.drawBox(arena.slotAt(row, place));
    if (row.length === 0) return this.drawEnd('slot', arena.root, true);
    const next = arena.word('next', arena.slotAt(row, row.length - 1));
    if (row.wrongNext) return this.drawEnd('next', next, true);
    return row.kind === CLOSED ? this.drawEnd('back to', next, false) : this.drawEnd('itself', null, false);
  }

  /** Draws what a pointer at the end of a row says. */
  drawEnd(name, slot, wrong) {
    const node = element('div', wrong ? 'end wrong' : 'end', name);
    if (slot !== null) {
      node.append(element('b', '', slot));
      node.dataset.slot = slot;
      node.classList.toggle('leads', this.arena.has(slot));
    }
    return node;
  }

  /** Draws the arrow behind a cell. */
  drawArrow(row, cell) {
    const back = cell < lead(row) && row.wrongPrev;
    const wrong = back || (row.wrongNext && cell === cellsOf(row) - 2);
    const node = element('i', `arrow${back ? ' back' : ''}${wrong ? ' wrong' : ''}`);
    node.setAttribute('aria-hidden', 'true');
    return node;
  }

  /** Draws a slot. */
  drawBox(slot) {
    const { arena } = this;
    const node = element('div', 'box');
    const payload = arena.isLink(slot) ? arena.columns.payload[slot - 1] ?? 'missing' : 'free';
    node.append(element('b', '', slot), element('span', '', payload));
    if (arena.isOtherGeneration(slot)) {
      node.append(element('small', 'generation', `gen ${arena.word('generation', slot)}`));
    }
    const tie = this.tieOf(slot);
    if (tie) node.append(element('small', 'tie', `${tie.word} ${tie.slot}`));
    const due = arena.due(slot);
    if (due) node.append(element('small', 'due-number', `due ${due.number}`));
    node.classList.toggle('due', due !== undefined);
    node.classList.toggle('free', !arena.isLink(slot));
    node.classList.toggle('broken', arena.isBroken(slot));
    node.id = `panel-${this.number}-slot-${slot}`;
    node.dataset.slot = slot;
    node.setAttribute('role', 'option');
    const said = [...node.children].map((child) => child.textContent);
    if (arena.isLink(slot)) said[1] = `payload ${said[1]}`;
    node.setAttribute('aria-label', `slot ${said.join(', ')}`);
    this.mark(node, slot);
    return node;
  }

  /** Where a link came from or went to: of an arena between two others, where it came from. */
  tieOf(slot) {
    const [from, to] = [this.arena.isLink(slot) && this.arena.whereFrom[slot - 1], this.whereTo?.[slot]];
    if (from) return { word: 'from', slot: from };
    return to ? { word: 'to', slot: to } : null;
  }

  /** Shows whether a box is chosen, and whether it is a hit of the search. */
  mark(node, slot) {
    node.classList.toggle('chosen', slot === this.chosen);
    node.classList.toggle('hit', this.hits.has(slot));
    node.setAttribute('aria-selected', String(slot === this.chosen));
  }

  /** Draws a broken slot with its sentence. */
  drawFault({ fault }) {
    const node = element('div', 'fault');
    node.append(element('b', '', fault.slot), element('span', '', fault.sentence));
    node.dataset.slot = fault.slot;
    node.setAttribute('role', 'option');
    this.mark(node, fault.slot);
    return node;
  }

  /** Shows which part of the list is seen. */
  markPart() {
    const { list } = this;
    const end = list.box.scrollTop > 0 && list.box.scrollTop + list.box.clientHeight >= list.box.scrollHeight - 1;
    const seen = end ? list.lines.length - 1 : list.lineAt(list.top);
    this.nav.forEach((button, part) => {
      button.setAttribute('aria-current', String(list.lines[seen]?.part === part));
    });
  }

  /** Shows a slot as the chosen one, 0 for none. */
  show(slot) {
    const { arena } = this;
    this.chosen = slot;
    this.section.dataset.chosen = slot;
    this.card.show(slot);
    if (slot !== 0) {
      const row = arena.row(slot);
      this.list.reveal(this.lineOf(row, lead(row) + arena.placeOf[slot]));
      if (arena.faultsOf.has(slot)) this.faults.reveal(arena.faults.findIndex((fault) => fault.slot === slot));
    }
    this.markAll();
  }

  /** Marks everything that is drawn. */
  markAll() {
    for (const node of this.section.querySelectorAll('.box, .fault')) this.mark(node, Number(node.dataset.slot));
    const id = `panel-${this.number}-slot-${this.chosen}`;
    if (this.chosen) this.list.box.setAttribute('aria-activedescendant', id);
    else this.list.box.removeAttribute('aria-activedescendant');
  }

  /** Lays everything out for the printer. */
  print() {
    const row = this.chosen ? this.arena.row(this.chosen) : null;
    this.lay(PRINTED_WIDTH);
    this.list.spread(row ? this.lineOf(row, lead(row) + this.arena.placeOf[this.chosen]) : 0);
    this.faults.spread(0);
  }
}

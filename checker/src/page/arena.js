'use strict';

// An arena as the page's data have it: words by slot, rows, faults, what is due.

/** The kinds of rows, by their numbers in the data. */
const [OPEN, LONE, CLOSED, FREELIST, UNLISTED] = [0, 1, 2, 3, 4];
/** The parts of a list in their order, one for each kind of rows. */
const PARTS = ['Open chains', 'Lone links', 'Closed chains', 'Freelist', 'Free, not on the freelist'];

/** The words of a column: so many bytes each, in base64, their low bytes first. */
function words([width, text]) {
  const bytes = atob(text);
  const column = new Uint32Array(bytes.length / width);
  for (let k = 0; k < column.length; k++) {
    for (let byte = width - 1; byte >= 0; byte--) {
      column[k] = column[k] * 256 + bytes.charCodeAt(k * width + byte);
    }
  }
  return column;
}

/** An arena by slot, with its rows and faults. */
class Arena {
  constructor(data) {
    const { title, stack, stackLength, capacity, root, current, follows, around } = data;
    Object.assign(this, { title, stack, stackLength, capacity, root, current, follows, around });
    this.columns = {};
    for (const name of ['prev', 'next', 'generation', 'payload']) {
      this.columns[name] = words(data[name]);
    }
    this.whereFrom = words(data.whereFrom);
    this.order = words(data.order);
    this.readRows(words(data.kinds), words(data.lengths));
    this.readFaults(words(data.faults), data.sentences, words(data.unlisted));
    this.readDue(words(data.due), words(data.dueLines), words(data.duePlaces));
  }

  /** Reads the rows, and in which row and at which place each slot stands. */
  readRows(kinds, lengths) {
    this.rowOf = new Uint32Array(this.stack + 1);
    this.placeOf = new Uint32Array(this.stack + 1);
    let begin = 0;
    this.rows = Array.from(kinds, (flags, k) => {
      const row = { kind: flags & 7, wrongPrev: (flags & 8) !== 0, wrongNext: (flags & 16) !== 0, line: 0 };
      Object.assign(row, { begin, length: lengths[k] });
      for (let place = 0; place < row.length; place++) {
        const slot = this.order[begin + place];
        this.rowOf[slot] = k;
        this.placeOf[slot] = place;
      }
      begin += row.length;
      return row;
    });
  }

  /** Reads the faults, which ones each slot has, and the slots that have faults which are not listed. */
  readFaults(slots, sentences, unlisted) {
    this.faults = Array.from(slots, (slot, k) => ({ slot, sentence: sentences[k] }));
    this.faultsOf = new Map();
    for (const fault of this.faults) {
      if (!this.faultsOf.has(fault.slot)) this.faultsOf.set(fault.slot, []);
      this.faultsOf.get(fault.slot).push(fault);
    }
    this.isUnlisted = new Uint8Array(this.stack + 1);
    for (const slot of unlisted) this.isUnlisted[slot] = 1;
  }

  /** Reads the links that are due: which one each is, from 1 on, its line, and its place there. */
  readDue(slots, lines, places) {
    this.dueNumbers = new Uint32Array(this.stack + 1);
    slots.forEach((slot, k) => (this.dueNumbers[slot] = k + 1));
    Object.assign(this, { dueCount: slots.length, dueLines: lines, duePlaces: places });
  }

  /** Which one a slot is of those that are due, its line, and its place there; nothing if it is not due. */
  due(slot) {
    const number = this.dueNumbers[slot];
    return number ? { number, line: this.dueLines[number - 1], place: this.duePlaces[number - 1] } : undefined;
  }

  /** Whether something is wrong at a slot. */
  isBroken(slot) {
    return this.faultsOf.has(slot) || this.isUnlisted[slot] === 1;
  }

  /** A word of a slot; one that is not there reads as 0. */
  word(name, slot) {
    return this.columns[name][slot - 1] ?? 0;
  }

  /** Whether the stack has a slot. */
  has(slot) {
    return slot >= 1 && slot <= this.stack;
  }

  /** Whether the columns have a slot, but the header's stack has not. */
  isAbove(slot) {
    return slot > this.stackLength && slot <= this.capacity;
  }

  /** Whether a slot of the stack is a link. */
  isLink(slot) {
    return this.has(slot) && this.word('generation', slot) !== 0;
  }

  /** The slot at a place of a row. */
  slotAt(row, place) {
    return this.order[row.begin + place];
  }

  /** The row of a slot. */
  row(slot) {
    return this.rows[this.rowOf[slot]];
  }

  /** Whether a pointer of a slot leads to where it may not. */
  isWrong(slot, side) {
    const other = this.word(side, slot);
    if (this.isLink(slot)) {
      const back = side === 'next' ? 'prev' : 'next';
      return other !== 0 && !(this.isLink(other) && this.word(back, other) === slot);
    }
    const row = this.row(slot);
    return side === 'next' && row.kind === FREELIST && row.wrongNext && this.placeOf[slot] === row.length - 1;
  }

  /** Whether a link's generation differs from the current one. */
  isOtherGeneration(slot) {
    return this.isLink(slot) && this.word('generation', slot) !== this.current;
  }
}

/** Whether no pointer leads between the slots of a row, so that they stand packed. */
function isPacked(row) {
  return row.kind === LONE || row.kind === UNLISTED;
}

/** How many cells stand before a row's boxes: what leads to the first one, if that is to be told. */
function lead(row) {
  return row.wrongPrev || row.kind === FREELIST ? 1 : 0;
}

/** How many cells a row has: its boxes, and what leads to the first and from the last one, if that is to be told. */
function cellsOf(row) {
  return lead(row) + row.length + (row.wrongNext || row.kind === CLOSED || row.kind === FREELIST ? 1 : 0);
}

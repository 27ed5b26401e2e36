// The card of the chosen slot.

/** The card that tells of the chosen slot, with buttons that follow its pointers. */
class Card {
  constructor(view, node) {
    this.view = view;
    this.node = node;
    this.buttons = {};
    for (const side of ['prev', 'next']) {
      this.buttons[side] = element('button', side);
      this.buttons[side].addEventListener('click', () => this.follow(side));
    }
    this.heading = element('h3');
    this.facts = element('dl');
    this.faulty = element('div', 'faulty');
    const pointers = element('div', 'pointers');
    pointers.append(this.buttons.prev, this.buttons.next);
    node.append(this.heading, pointers, this.facts, this.faulty);
    this.show(0);
  }

  /** Tells of a slot, 0 for none. */
  show(slot) {
    const { arena } = this.view;
    this.node.classList.toggle('empty', slot === 0);
    this.heading.textContent = slot ? `Slot ${slot}` : 'No slot';
    for (const side of ['prev', 'next']) this.showPointer(side, slot);
    const facts = slot ? this.describe(slot) : [['Click a box, or search.', '']];
    this.facts.replaceChildren(...facts.map(([name, fact]) => {
      const pair = element('div');
      pair.append(element('dt', '', name), element('dd', '', fact));
      return pair;
    }));
    const sentences = (arena.faultsOf.get(slot) ?? []).map((fault) => fault.sentence);
    if (arena.isUnlisted[slot]) sentences.push('More is wrong here than is listed.');
    this.faulty.replaceChildren(...sentences.map((sentence) => element('p', '', sentence)));
  }

  /** Shows where a pointer of a slot leads. */
  showPointer(side, slot) {
    const { arena } = this.view;
    const button = this.buttons[side];
    const means = arena.isLink(slot) || (side === 'next' && arena.has(slot));
    const to = means ? arena.word(side, slot) : 0;
    const beyond = to > arena.stackLength ? ' above the stack' : to > arena.stack ? ' not in the columns' : '';
    button.replaceChildren(element('span', '', side), element('b', '', to === 0 ? 'none' : `${to}${beyond}`));
    button.classList.toggle('wrong', means && arena.isWrong(slot, side));
    button.setAttribute('aria-disabled', String(!arena.has(to)));
  }

  /** Names and facts of a slot. */
  describe(slot) {
    const { arena, whereTo } = this.view;
    const row = arena.row(slot);
    const place = `${arena.placeOf[slot] + 1} of ${row.length}`;
    const facts = [];
    if (arena.isLink(slot)) {
      const [payload, generation] = [arena.columns.payload[slot - 1], arena.word('generation', slot)];
      facts.push(['Payload', payload === undefined ? 'missing' : `${payload} (0x${payload.toString(16)})`]);
      const other = generation === arena.current ? '' : `, current is ${arena.current}`;
      facts.push(['Generation', `${generation}${other}`]);
      const chain = row.kind === LONE ? 'lone link' : `${row.kind === OPEN ? 'open' : 'closed'}, link ${place}`;
      facts.push(['Chain', chain]);
    } else {
      facts.push(['Free', row.kind === FREELIST ? `on the freelist, ${place}` : 'not on the freelist']);
    }
    const due = arena.due(slot);
    if (due) facts.push(['Due', `${due.number} of ${arena.dueCount}: line ${due.line}, place ${due.place}`]);
    const from = arena.isLink(slot) && arena.whereFrom[slot - 1];
    if (from) facts.push(['Came from', `slot ${from}`]);
    if (whereTo?.[slot]) facts.push(['Went to', `slot ${whereTo[slot]}`]);
    return facts;
  }

  /** Chooses the slot that a pointer of the chosen slot names, if the stack has it. */
  follow(side) {
    const { view } = this;
    const { arena, chosen } = view;
    const means = arena.isLink(chosen) || (side === 'next' && arena.has(chosen));
    if (means && arena.has(arena.word(side, chosen))) choose(view, arena.word(side, chosen));
  }
}

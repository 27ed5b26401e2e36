// What belongs to all arenas together: the choice, the search, the address, and the start.

/** Ties each compressed arena to the one before it, so that a link is found in both. */
function tie(views) {
  views.forEach((view, k) => {
    const before = views[k - 1];
    if (!before || !view.arena.follows) return;
    view.before = before;
    before.after = view;
    before.whereTo = new Uint32Array(before.arena.stack + 1);
    view.arena.whereFrom.forEach((from, place) => {
      if (before.arena.isLink(from) && view.arena.isLink(place + 1)) before.whereTo[from] = place + 1;
    });
  });
}

/** Chooses a slot, and in the arenas that are tied to this one the same link. */
function choose(view, slot) {
  const slots = new Map([[view, slot]]);
  for (let at = view; at.before && slots.get(at); at = at.before) {
    const from = at.arena.isLink(slots.get(at)) ? at.arena.whereFrom[slots.get(at) - 1] ?? 0 : 0;
    slots.set(at.before, at.before.arena.isLink(from) ? from : 0);
  }
  for (let at = view; at.after && slots.get(at); at = at.after) slots.set(at.after, at.whereTo[slots.get(at)]);
  const [one, two] = views;
  if (views.length === 2 && !two.before) {
    // Two arenas that are compared: the same slot of both.
    const other = view === one ? two : one;
    slots.set(other, other.arena.has(slot) ? slot : 0);
  }
  for (const each of views) each.show(slots.get(each) ?? 0);
  keepFragment(`#panel=${view.number}&slot=${slot}`);
}

/** Keeps the choice in the address, where the browser lets us. */
function keepFragment(fragment) {
  try {
    history.replaceState(null, '', fragment);
  } catch {
    // Some browsers refuse this for a page from disk; then the address just stays.
  }
}

/** What is searched for, its hits, and which of them is shown. */
const search = { wanted: '', only: null, hits: [], at: 0 };

/** Searches all arenas, or one; the same search again goes to the next hit. */
function find(text, by, only = null, step = 1) {
  const wanted = `${text.trim()} ${by}`;
  // The search field cannot say that one arena alone is searched, so that it goes on with any search for the same.
  const again = wanted === search.wanted && (!only || only === search.only);
  if (again && search.hits.length > 0) return goToHit(search.at + step);
  const number = /^(0x[0-9a-f]+|[0-9]+)$/i.test(text.trim()) ? Number(text) : null;
  const searched = views.filter((view) => number !== null && (!only || view === only));
  const found = searched.flatMap((view) => hitsIn(view, number, by));
  for (const view of views) view.hits = new Set(found.filter((hit) => hit.view === view).map((hit) => hit.slot));
  const hits = found.filter((hit) => only || !isShownBefore(hit));
  hits.sort((one, two) => Number(two.by.startsWith('slot')) - Number(one.by.startsWith('slot')));
  Object.assign(search, { wanted, only, hits, at: 0 });
  document.body.dataset.hits = hits.length;
  if (hits.length > 0) return goToHit(0);
  for (const view of views) view.markAll();
  tell(number === null ? 'Type a number, such as 50 or 0x32.' : notFound(text.trim(), by, searched), true);
  return undefined;
}

/** The slots of an arena that a number finds. */
function hitsIn(view, number, by) {
  const { arena } = view;
  const hits = [];
  if ((by === 'any' || by === 'slot') && arena.has(number)) hits.push({ view, slot: number, by: 'slot' });
  if (by === 'slot') return hits;
  const name = by === 'any' ? 'payload' : by;
  const column = arena.columns[name];
  for (let slot = 1; slot <= arena.stack; slot++) {
    if (column[slot - 1] !== number || !arena.isLink(slot)) continue;
    if (hits[0]?.slot === slot) hits[0].by = `slot and ${name}`;
    else hits.push({ view, slot, by: name });
  }
  return hits;
}

/** Whether a hit by payload is the same link as one in the arena before its compression. */
function isShownBefore({ view, slot, by }) {
  if (by !== 'payload' || !view.before) return false;
  return view.before.hits.has(view.arena.whereFrom[slot - 1]);
}

/** What is said where nothing is found. The number stands in it as it was typed. */
function notFound(typed, by, searched) {
  const above = searched.some((view) => view.arena.isAbove(Number(typed)));
  if (by === 'slot') return above ? `Slot ${typed} is above the stack.` : `Not found: no slot ${typed}.`;
  if (by === 'any' && above) return `Slot ${typed} is above the stack, and no link has payload ${typed}.`;
  return `Not found: no ${by === 'any' ? 'slot and no link with payload' : `link with ${by}`} ${typed}.`;
}

/** Shows a hit; after the last comes the first. */
function goToHit(at) {
  const { hits } = search;
  search.at = (at + hits.length) % hits.length;
  const { view, slot, by } = hits[search.at];
  choose(view, slot);
  view.bringIntoView();
  const where = views.length > 1 ? ` in ${view.arena.title}` : '';
  const what = by === 'slot' ? `slot ${slot}` : by.startsWith('slot') ? `${by} ${slot}` : `${by} of slot ${slot}`;
  tell(`${search.at + 1} of ${counted(hits.length, 'hit')}: ${what}${where}`, false);
}

/** Says what a search found. */
function tell(text, failed) {
  const found = document.getElementById('found');
  found.textContent = text;
  found.classList.toggle('failed', failed);
  for (const name of ['hit-before', 'hit-after']) document.getElementById(name).disabled = search.hits.length < 2;
}

/** Does what the address asks for: `#slot=7`, `#payload=50`, `#generation=3`, each also with `panel=1`. */
function openFragment() {
  const asked = new URLSearchParams(location.hash.slice(1));
  const view = views[Number(asked.get('panel')) - 1] ?? null;
  const slot = Number(asked.get('slot'));
  const by = ['payload', 'generation', 'slot'].find((name) => asked.has(name));
  if (by === 'slot' && view?.arena.has(slot)) return choose(view, slot);
  if (!by) return undefined;
  document.getElementById('wanted').value = asked.get(by);
  document.getElementById('by').value = by;
  return find(asked.get(by), by, view);
}

/** Chooses the slot that was asked for when the page was made, if there was one. */
function openAround() {
  const view = views.find(({ arena }) => arena.has(arena.around));
  if (view) choose(view, view.arena.around);
}

/** Answers the search field, its buttons, and the keys that are the same everywhere. */
function listenToSearch() {
  const form = document.getElementById('search');
  const [wanted, by] = [document.getElementById('wanted'), document.getElementById('by')];
  form.addEventListener('submit', (event) => {
    event.preventDefault();
    find(wanted.value, by.value);
  });
  wanted.addEventListener('keydown', (event) => {
    if (event.key !== 'Enter' || !event.shiftKey) return;
    event.preventDefault();
    find(wanted.value, by.value, null, -1);
  });
  // What is typed anew is searched in all arenas.
  for (const field of [wanted, by]) field.addEventListener('input', () => (search.wanted = ''));
  document.getElementById('hit-before').addEventListener('click', () => goToHit(search.at - 1));
  document.getElementById('hit-after').addEventListener('click', () => goToHit(search.at + 1));
  document.addEventListener('keydown', (event) => {
    if (event.key !== '/' || event.target.matches('input, select')) return;
    event.preventDefault();
    wanted.select();
    wanted.focus();
  });
}

/** Lays the lists out again where their widths have changed. */
function listenToSizes() {
  const sizes = new ResizeObserver(() => {
    for (const view of views) {
      if (view.list.space.clientWidth !== view.width && !printing) view.lay();
      view.list.render();
    }
  });
  for (const view of views) sizes.observe(view.list.box);
  addEventListener('beforeprint', () => {
    printing = true;
    for (const view of views) view.print();
  });
  addEventListener('afterprint', () => {
    printing = false;
    for (const view of views) view.lay();
  });
}

let printing = false;
const views = JSON.parse(document.getElementById('data').textContent).map((data, k) => new View(data, k));
tie(views);
for (const node of document.querySelectorAll('#search, #help, .live')) node.hidden = false;
for (const view of views) view.lay();
listenToSearch();
listenToSizes();
addEventListener('hashchange', openFragment);
if (location.hash) openFragment();
else openAround();
document.body.dataset.ready = 'yes';

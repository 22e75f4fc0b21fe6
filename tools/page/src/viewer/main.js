// Main: reads the data, draws, and listens. Each step uses only those before it: lines -> entries -> rows -> what is
// seen.

document.addEventListener('DOMContentLoaded', () => setTimeout(start));

function start() {
  const began = performance.now(), data = $('log');
  log = readLog(data ? data.textContent : '');
  rows = makeRows();
  account = makeAccount();
  readNames();
  readLife();
  readBars();
  $('reading').remove();
  $('app').hidden = false;
  document.title = titleOf();
  const red = rows.troubles[RED];
  $('troubles').textContent = red ? commas(red) : '';
  fillPatterns();
  fillResets();
  fillKey();
  view.measure();
  view.arrange();
  listen();
  goToHash();
  Object.assign(window, { took: Math.round(performance.now() - began) });
}

function listen() {
  let due = 0;
  $('view').addEventListener('scroll', () => {
    if (!due) due = requestAnimationFrame(() => { due = 0; view.draw(); });
  }, { passive: true });
  new ResizeObserver(() => { if ($('view').clientWidth !== layout.width) view.resize();
  else view.draw(); }).observe($('view'));
  $('sheet').addEventListener('click', pressed);
  $('trouble').onclick = onlyTrouble;
  $('filter').addEventListener('toggle', () => { if ($('filter').open) fillFilters(); });
  document.addEventListener('pointerdown', event => { closeCards(card => !card.contains(event.target)); });
  window.addEventListener('hashchange', goToHash);
  window.addEventListener('beforeprint', fillPrint);
  matchMedia('(prefers-color-scheme: dark)').addEventListener('change', () => view.place());
  document.addEventListener('keydown', keyed);
  listenToSearch();
  listenToOverview();
  $('view').focus({ preventScroll: true });
}

/** A click on a row, or on a button in it. */
function pressed(event) {
  const { fold, trouble } = event.target.dataset, row = event.target.closest('.row');
  if (fold) { layout.fold(Number(fold)); rearrange(); } else if (trouble) onlyTrouble();
  else if (row && Number(row.dataset.row) !== TOP && !String(getSelection())) {
    view.select(Number(row.dataset.row));
    showPanel();
  }
}

/** Closes the cards of the bar that a test chooses; says whether one was open. */
function closeCards(chosen = _ => true) {
  const open = [$('filter'), $('help')].filter(card => card.open && chosen(card));
  for (const card of open) {
    if (card.contains(document.activeElement)) card.firstElementChild.focus();
    card.open = false;
  }
  return open.length > 0;
}

const scrollByPages = pages => {
  const high = Math.max(1, Math.floor($('view').clientHeight / layout.rowHeight) - 2) * layout.rowHeight;
  view.scrollTo(view.scrolled() + pages * high);
};

const DOES = {
  '/': () => { $('query').focus(); $('query').select(); }, n: () => nextMatch(1), p: () => nextMatch(-1),
  ArrowDown: () => view.step(1), j: () => view.step(1), ArrowUp: () => view.step(-1), k: () => view.step(-1),
  Enter: () => showPanel(), Escape: () => { if (!closeCards() && !$('panel').hidden) closePanel(); },
  ']': () => stepSection(1), '[': () => stepSection(-1), t: onlyTrouble, '.': () => nextTrouble(1),
    ',': () => nextTrouble(-1),
  m: () => { if (view.selected > TOP) setMark(); }, '?': () => { $('help').open = !$('help').open; },
  Home: () => view.scrollTo(0), End: () => view.scrollTo(layout.total),
  PageDown: () => scrollByPages(1), PageUp: () => scrollByPages(-1),
};

function keyed(event) {
  const does = DOES[event.key], typing = /^(INPUT|SELECT|TEXTAREA)$/.test(event.target.tagName);
  if (!does || event.ctrlKey || event.metaKey || event.altKey || (typing && event.key !== 'Escape')) return;
  if (event.key === 'Enter' && /^(BUTTON|SUMMARY|A)$/.test(event.target.tagName)) return;
  event.preventDefault();
  does();
}

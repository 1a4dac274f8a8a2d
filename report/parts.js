// The chosen part, and the table of all: a witness may have thousands, so the table shows some at a time.

const ROWS = 20;

const kindText = (part) => (part.kind === 'red' ? 'red' : 'general');

function cell(text, className) {
  const it = made('td', text);
  if (className) it.className = className;
  return it;
}

// A row of the table, which chooses its part.
function partRow(report, part) {
  const row = document.createElement('tr');
  const head = document.createElement('th');
  const button = document.createElement('button');
  head.scope = 'row';
  button.type = 'button';
  button.textContent = `Part ${number(part.index + 1)}`;
  button.setAttribute('aria-pressed', String(part === report.chosen));
  button.addEventListener('click', () => choose(report, part));
  head.append(button);
  row.append(head, cell(kindText(part)), cell(`${part.x}, ${part.y}`), cell(`${part.width} by ${part.height}`),
    cell(number(part.area), 'number'), cell(percent(part.area), 'number'));
  row.classList.toggle('is-chosen', part === report.chosen);
  return row;
}

// Shows the page of the table that begins at this part.
function showRows(report, from) {
  const {ordered} = report.witness;
  const last = Math.floor((ordered.length - 1) / ROWS) * ROWS;
  report.from = Math.max(0, Math.min(from, last));
  const shown = ordered.slice(report.from, report.from + ROWS);
  document.querySelector('#list tbody').replaceChildren(...shown.map((part) => partRow(report, part)));
  document.getElementById('range').textContent = `${number(report.from + 1)} to `
    + `${number(report.from + shown.length)} of ${number(ordered.length)}`;
  const [isFirst, isLast] = [report.from === 0, report.from === last];
  const focused = document.activeElement.id;
  for (const [id, isAtEnd, other] of [
    ['first', isFirst, 'next'], ['back', isFirst, 'next'], ['next', isLast, 'back'], ['last', isLast, 'back'],
  ]) {
    document.getElementById(id).disabled = isAtEnd;
    // A button that can't be used any more hands its focus on.
    if (isAtEnd && id === focused) document.getElementById(other).focus();
  }
}

// The buttons below the table, where it doesn't show all at once.
function listenRows(report) {
  const {ordered} = report.witness;
  const on = (id, to) => document.getElementById(id).addEventListener('click', () => showRows(report, to()));
  on('first', () => 0);
  on('back', () => report.from - ROWS);
  on('next', () => report.from + ROWS);
  on('last', () => ordered.length);
  const go = document.getElementById('go');
  go.max = ordered.length;
  go.addEventListener('change', () => {
    const at = ordered.findIndex((part) => part.index === Number(go.value) - 1);
    if (at < 0) return;
    showRows(report, Math.floor(at / ROWS) * ROWS);
    choose(report, ordered[at]);
  });
  document.getElementById('pager').hidden = ordered.length <= ROWS;
}

// The table of the nine frames of a part.
function showTurns(report, part) {
  const isRed = part.kind === 'red';
  const own = isRed ? ['Share of red', 'Change, by u′v′'] : ['Relative luminance', 'Change'];
  const changes = changesOf(part);
  const head = document.createElement('tr');
  head.append(...['Frame', 'Time', 'Colour', ...own].map((text) => Object.assign(made('th', text), {scope: 'col'})));
  const rows = part.tints.map((tint, turn) => {
    const row = document.createElement('tr');
    const range = rangeOf(tint, isRed ? redShareOf : luminanceOf);
    const [low, high] = [range.low.toFixed(3), range.high.toFixed(3)];
    const value = range.low === range.high ? low : `${low} to ${high}`;
    const change = changes[turn - 1];
    const colour = cell('');
    colour.append(...swatch(tint));
    const frame = part.frames[turn];
    row.append(cell(number(frame)), cell(seconds(secondsOf(report.words, frame))), colour, cell(value),
      cell(change ? `${change.isUp ? '▲' : '▼'} ${change.word}, ${change.by.toFixed(3)}` : ''));
    return row;
  });
  document.querySelector('#turns thead').replaceChildren(head);
  document.querySelector('#turns tbody').replaceChildren(...rows);
}

// Chooses a part: its graph, its frames and its pictures are shown.
function choose(report, part) {
  const hadFocus = document.getElementById('list').contains(document.activeElement);
  report.chosen = part;
  const {length} = report.witness.parts;
  put('part-title', `Part ${number(part.index + 1)}${length > 1 ? ` of ${number(length)}` : ''}`);
  put('part-text', `${part.width} by ${part.height} pixels at ${part.x}, ${part.y}, which is ${percent(part.area)} `
    + `of the rectangle. All of them have the same colour in each of the nine frames: ${kindText(part)} flashes.`);
  put('graph-text', graphText(part));
  document.getElementById('part').hidden = false;
  drawGraph(report, part);
  showTurns(report, part);
  outlineScene(report, report.witness, part);
  showStrip(report, part);
  showRows(report, report.from);
  if (hadFocus) document.querySelector('#list [aria-pressed=true]')?.focus();
}

// The table, the first part of it chosen.
function showParts(report) {
  const count = report.witness.parts.length;
  put('parts-text', `The witness has ${counted(count, 'part', 'parts')}; the shares are of `
    + 'the rectangle’s 87,296 pixels. Choose one to see its graph and its pictures.');
  document.getElementById('parts').hidden = false;
  report.from = 0;
  listenRows(report);
  choose(report, report.witness.ordered[0]);
  new ResizeObserver(() => drawGraph(report, report.chosen)).observe(document.getElementById('graph'));
}

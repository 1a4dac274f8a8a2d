// The page's bytes around the place of a fault.

// How many bytes of a long line are shown on either side of the place, and how many lines.
const NEAR = 70;
const LINES = 2;

// The places of the openings of body and boxes in a page, in their order: comments, styles and titles are passed over.
function elementsOf(bytes) {
  const text = Array.from(bytes, (it) => String.fromCharCode(it)).join('');
  const token = /<!--[^]*?-->|<(style|title)\b[^]*?<\/\1|<(?:body|div|span)(?![a-z0-9])/gi;
  return Array.from(text.matchAll(token)).filter((it) => /^<(body|div|span)/i.test(it[0])).map((it) => it.index);
}

// The place that an answer tells of, or null.
function placeOf(answer, bytes) {
  if (bytes === null) return null;
  if (answer.at !== undefined) return answer.at;
  const element = {placed: answer.element, animations: answer.element, body: 0, boxes: 65}[answer.kind];
  return element === undefined ? null : elementsOf(bytes)[element] ?? null;
}

// The bytes from one place to another as text. What has no picture gets one.
function shown(bytes, from, to) {
  const text = new TextDecoder().decode(bytes.slice(Math.max(from, 0), Math.max(to, 0)));
  return text.replace(/\t/g, '  ').replace(/[\u0000-\u001f]/g, (it) => String.fromCharCode(0x2400 + it.charCodeAt(0)));
}

// The place where a line begins that has this place in it, and the place of its end.
function lineAround(bytes, at) {
  const from = at === 0 ? 0 : bytes.lastIndexOf(10, at - 1) + 1;
  const end = bytes.indexOf(10, at);
  return {from, to: end < 0 ? bytes.length : end};
}

// A place moved on or back to where a character of UTF-8 begins.
function atCharacter(bytes, at, step) {
  while (at > 0 && at < bytes.length && (bytes[at] & 0xc0) === 0x80) at += step;
  return at;
}

// A line of the page with its number.
function line(count, parts) {
  const row = document.createElement('div');
  const head = document.createElement('span');
  head.className = 'line-number';
  head.textContent = count;
  const code = document.createElement('code');
  code.append(...parts);
  row.append(head, code);
  return row;
}

// The line with the place in it: what stands before, the mark over one character, and what follows.
function markedLine(bytes, at, count) {
  const {from, to} = lineAround(bytes, at);
  const first = atCharacter(bytes, Math.max(from, at - NEAR), 1);
  const last = atCharacter(bytes, Math.min(to, at + NEAR), 1);
  const next = at < bytes.length ? Math.min(atCharacter(bytes, at + 1, 1), Math.max(to, at + 1)) : at;
  const mark = document.createElement('mark');
  const end = at >= bytes.length ? '⟨end of the file⟩' : '⟨end of the line⟩';
  mark.textContent = at >= to ? end : shown(bytes, at, next);
  const before = (first > from ? '… ' : '') + shown(bytes, first, at);
  const after = at >= to ? '' : shown(bytes, next, last) + (last < to ? ' …' : '');
  return line(count, [before, mark, after]);
}

// A line without the place in it, cut where it is long.
function plainLine(bytes, from, to, count) {
  const last = atCharacter(bytes, Math.min(to, from + 2 * NEAR), 1);
  return line(count, [shown(bytes, from, last) + (last < to ? ' …' : '')]);
}

// Shows the lines around a place, the one with it marked.
function showPlace(bytes, at) {
  const rows = [];
  const own = lineAround(bytes, at);
  const ownCount = bytes.slice(0, own.from).reduce((count, it) => count + (it === 10), 1);
  let {from} = own;
  for (let back = 1; back <= LINES && from > 0; back += 1) {
    const above = lineAround(bytes, from - 1);
    rows.unshift(plainLine(bytes, above.from, from - 1, ownCount - back));
    ({from} = above);
  }
  rows.push(markedLine(bytes, at, ownCount));
  for (let on = 1, {to} = own; on <= LINES && to + 1 < bytes.length; on += 1) {
    const below = lineAround(bytes, to + 1);
    rows.push(plainLine(bytes, to + 1, below.to, ownCount + on));
    ({to} = below);
  }
  const excerpt = document.getElementById('excerpt');
  const column = shown(bytes, own.from, at).length + 1;
  document.getElementById('place-text').textContent = `Byte ${number(at)} of the file, counted from 0: line `
    + `${number(ownCount)}, character ${number(column)}. It is marked.`;
  document.getElementById('place').hidden = false;
  excerpt.replaceChildren(...rows);
  const mark = excerpt.querySelector('mark');
  const isOutside = mark.offsetLeft + mark.offsetWidth > excerpt.clientWidth;
  if (isOutside) excerpt.scrollLeft = mark.offsetLeft - excerpt.clientWidth / 2;
}

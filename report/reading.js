// What the report is made of: the words of the run, the text that the program printed, and the bytes of the page.

const RECTANGLE = {width: 341, height: 256};
const ALLOWED = 21824;

// The bytes of one of the data blocks, or null where it is empty.
function bytesOf(id) {
  const text = document.getElementById(id).textContent.replace(/\s/g, '');
  return text === '' ? null : Uint8Array.from(atob(text), (it) => it.charCodeAt(0));
}

const asText = (bytes) => new TextDecoder().decode(bytes);

// The words of the run. The name comes last, since it may hold line ends.
function readWords() {
  const [status, size, rate, called, ...name] = asText(bytesOf('data-words')).split('\n');
  const [width, height] = size.split('x').map(Number);
  const [frames, per] = rate.split('/').map(Number);
  const page = name.join('\n');
  return {status: Number(status), size, rate, called, page, width, height, frames, per: per || 1};
}

// A tint as two colours, each of three channels: the least and the greatest.
function readTint(text) {
  const colours = text.split('-').map((hex) => [0, 2, 4].map((at) => parseInt(hex.slice(at, at + 2), 16)));
  return {text, low: colours[0], high: colours[colours.length - 1]};
}

// A witness: its parts get their number, their pixels and their tints as colours.
function readWitness(text) {
  const witness = JSON.parse(text);
  witness.per = witness.per || 1;
  witness.parts = witness.parts.map((part, index) => ({
    ...part, index, area: part.width * part.height, tints: part.tints.map(readTint),
  }));
  witness.ordered = [...witness.parts].sort((a, b) => b.area - a.area || a.index - b.index);
  return witness;
}

// The texts of the program, but for witnesses: the kind of answer, and the names of the numbers in it.
const TEXTS = [
  [/^pass: frames (\d+)(, regions apart)?$/, 'pass', ['windows']],
  [/^undecided: more than (\d+) frames$/, 'frames', ['most']],
  [/^undecided: (\d+) cells in (\d+) frames$/, 'work', ['cells', 'frames']],
  [/^undecided: enclosure at start (\d+), rectangle (-?\d+) (-?\d+)$/, 'enclosure', ['start', 'x', 'y']],
  [/^cannot read$/, 'unread', []],
  [/^no memory$/, 'memory', []],
  [/^page: too long$/, 'long', []],
  [/^page: bad text at (\d+)$/, 'text', ['at']],
  [/^page: more than 64 boxes$/, 'boxes', []],
  [/^page: bad sheet at (\d+)$/, 'sheet', ['at']],
  [/^page: unknown property at (\d+)$/, 'property', ['at']],
  [/^page: bad value at (\d+)$/, 'value', ['at']],
  [/^page: bad keyframes at (\d+)$/, 'keyframes', ['at']],
  [/^page: over a limit at (\d+)$/, 'limit', ['at']],
  [/^page: element (\d+) is not placed$/, 'placed', ['element']],
  [/^page: body has a property that it may not have$/, 'body', []],
  [/^page: more than 8 animations on element (\d+)$/, 'animations', ['element']],
];

// The answer, by the text that the program printed.
function readAnswer() {
  const text = asText(bytesOf('data-answer') || new Uint8Array()).replace(/\n$/, '');
  if (text.startsWith('{')) return {kind: 'fail', text, witness: readWitness(text)};
  for (const [pattern, kind, names] of TEXTS) {
    const found = pattern.exec(text);
    if (!found) continue;
    const answer = {kind, text, apart: text.endsWith(', regions apart')};
    names.forEach((name, at) => { answer[name] = Number(found[at + 1]); });
    return answer;
  }
  return {kind: 'other', text};
}

// Whether the page was accepted: only then is it painted here.
const isAccepted = (answer) => ['pass', 'fail', 'frames', 'work', 'enclosure'].includes(answer.kind);

// The seconds at which a frame is shown.
const secondsOf = (words, frame) => frame * words.per / words.frames;

// How many frames a one-second window has after its first.
const windowOf = (words) => Math.floor(words.frames / words.per);

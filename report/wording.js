// What is said of each answer: a title, a sentence, what it rests on, and what to change.

const grouped = new Intl.NumberFormat('en-GB');
const number = (it) => grouped.format(it);
const counted = (count, one, many) => `${number(count)} ${count === 1 ? one : many}`;
const seconds = (it) => `${new Intl.NumberFormat('en-GB', {maximumFractionDigits: 3}).format(it)}\u00a0s`;

// A share of the rectangle in percent, never rounded to the quarter that it isn't.
function percent(area) {
  const share = 100 * area / (RECTANGLE.width * RECTANGLE.height);
  const told = share < 0.1 ? 'under 0.1' : (Math.floor(share * 10) / 10).toString();
  return told === '25' && area > ALLOWED ? 'just over 25\u00a0%' : `${told}\u00a0%`;
}

// The kinds of flash in a witness, as WCAG names them.
function kindsOf(witness) {
  const kinds = new Set(witness.parts.map((part) => part.kind));
  if (kinds.size === 2) return 'general and red flashes';
  return kinds.has('red') ? 'red flashes' : 'general flashes';
}

// The flashes in a range of frames: 'from 0 s to 1 s (frames 0 to 60)'.
function whenOf(words, start) {
  const end = start + windowOf(words);
  const [from, to] = [start, end].map((it) => seconds(secondsOf(words, it)));
  return `from ${from} to ${to} (frames ${number(start)} to ${number(end)})`;
}

const FLASHES = {
  general: 'A general flash is a pair of opposing changes in relative luminance of 10\u00a0% or more of the '
    + 'maximum, where the relative luminance of the darker image is below 0.80.',
  red: 'A red flash is a pair of opposing transitions involving a saturated red: to or from a colour with four '
    + 'fifths or more of its light in red, over more than 0.2 in the CIE 1976 diagram.',
};

function sayFail(answer, words) {
  const {witness} = answer;
  const spot = `the 341 by 256 pixel rectangle whose upper left pixel is at ${witness.x}, ${witness.y}`;
  return {
    mark: 'Fail',
    title: 'Success criterion 2.3.1 is not met',
    sentence: `The page contains something that flashes more than three times in a one-second period: `
      + `${kindsOf(witness)}, ${whenOf(words, witness.start)}, in ${spot}, over ${number(witness.area)} of its `
      + `pixels, which is ${percent(witness.area)} of it, where no more than 25\u00a0% (${number(ALLOWED)} pixels) `
      + `may flash.`,
    facts: [
      ['Second', `${whenOf(words, witness.start)}`],
      ['Rectangle', `341 by 256 pixels at ${witness.x}, ${witness.y}`],
      ['Flashing', `${counted(witness.area, 'pixel', 'pixels')} of ${number(RECTANGLE.width * RECTANGLE.height)}, `
        + `${percent(witness.area)}`],
      ['Allowed', `${number(ALLOWED)} pixels, 25\u00a0%`],
      ['Made of', `${counted(witness.parts.length, 'part', 'parts')}, ${kindsOf(witness)}`],
    ],
    heading: 'What flashes, and what to change',
    why: [
      ...[...new Set(witness.parts.map((part) => part.kind))].map((kind) => FLASHES[kind]),
      'More than three of them is four pairs: nine frames of the second, between which the colour changes eight '
        + 'times, to and fro.',
      'To mend it, let the changes be fewer than four pairs in any second (a slower animation, or one that ends '
        + 'sooner), make the area that changes smaller, or bring its colours closer together.',
    ],
  };
}

function sayPass(answer, words) {
  const windows = counted(answer.windows, 'window', 'windows');
  const all = answer.windows === 1 ? 'It is the one that begins at frame 0.'
    : `They are those that begin at frames 0 to ${number(answer.windows - 1)}, one at each frame (the last one at `
      + `${seconds(secondsOf(words, answer.windows - 1))}).`;
  const apart = ['The rhythms of the whole page meet too seldom to go through them all. So each region of the page '
    + 'was looked at for as long as its own boxes need to repeat, and the regions that may flash fill nowhere more '
    + 'than a quarter of the rectangle.'];
  const whole = ['This is enough for ever: by then every animation that ends has ended, and all that never end have '
    + 'come round together once. Each later second shows the same colours as one of these.'];
  return {
    mark: 'Pass',
    title: 'Success criterion 2.3.1 is met',
    sentence: 'The page contains nothing that flashes more than three times in any one-second period, over more '
      + 'than a quarter of any 341 by 256 pixel rectangle of its viewport: neither general flashes nor red flashes, '
      + 'from its first frame on, for ever.',
    facts: [['Looked at', `${windows} of one second`]],
    heading: 'Why that is enough for ever',
    why: [`To know it, ${windows} of one second had to be looked at. ${all}`, ...(answer.apart ? apart : whole)],
  };
}

function sayUndecided(sentence, why) {
  return {
    mark: 'Undecided',
    title: 'Whether success criterion 2.3.1 is met is not known',
    sentence, facts: [], heading: 'Why, and what to change', why,
  };
}

const sayFrames = (answer, words) => sayUndecided(
  `The page may or may not flash: its animations repeat together only after more than ${number(answer.most)} `
    + `frames, which are not gone through.`, [
    `At ${words.rate} frames per second ${number(answer.most)} frames are ${seconds(secondsOf(words, answer.most))}.`,
    'Choose durations and delays that meet sooner: whole numbers of a common length, such as 250 ms, or shorter '
      + 'animations that end.',
  ]);

const sayWork = (answer, words) => sayUndecided(
  `The page may or may not flash: its boxes cut it into ${number(answer.cells)} cells, to be looked at in `
    + `${number(answer.frames)} frames.`, [
    `That is ${number(answer.cells * answer.frames)} together, and more than 4,194,304 are not gone through.`,
    'Use fewer boxes, let more of them share their edges, move them less far, or choose durations that meet sooner.',
  ]);

const sayEnclosure = (answer, words) => sayUndecided(
  `The page may or may not flash: in the second ${whenOf(words, answer.start)} its colours lie so close to a `
    + `threshold, in the rectangle at ${answer.x}, ${answer.y}, that the bounds of an easing curve do not tell on `
    + `which side.`, [
    'No second of the page flashes for sure. The picture shows the page where this second begins, with the '
      + 'rectangle.',
    'Move the colours a little away from the threshold, so that they differ by clearly less than a tenth in '
      + 'relative luminance; or ease by linear or steps, which are known exactly.',
  ]);

// The refusals: the sentence, and what to change.
const REFUSALS = {
  unread: ['The file cannot be read.', 'Is the name right, is it a file, and may you read it?'],
  memory: ['The system refused memory.', 'Try again where more memory is free.'],
  long: ['The file has more than 1,048,576 bytes.', 'A page may have as many. Leave out what does not show.'],
  text: ['The file is no page of the HTML that is understood: at the place marked below it ceases to be one.',
    'Only boxes (div, span) without content, one style sheet, one title and meta tags are understood. Mend or '
      + 'remove what stands at the mark.'],
  boxes: ['The page has more than 64 boxes.', 'The mark shows the 65th. Use fewer boxes, or split the page.'],
  sheet: ['In the style text something stands at the mark that can’t stand there, or the text ends too soon.',
    'Rules with tags, ids and classes, and @keyframes are understood; other at-rules, combinators and '
      + 'pseudo-classes are not.'],
  property: ['The style text sets a property at the mark that is not understood.',
    'It could change what is painted, so it is not skipped. Remove it, or write what it does with the properties '
      + 'that are understood.'],
  value: ['The style text has a value at the mark that is not understood.',
    'Write it in a form that is: lengths in px, times in s or ms, colours as #rrggbb, rgb() or by name.'],
  keyframes: ['A block of keyframes has something at the mark that may not stand there.',
    'A block may set colours, opacity, visibility, place and size, with offsets from 0% to 100%, each once, and '
      + 'nothing important.'],
  limit: ['A value at the mark is past its limit.',
    'Lengths go up to 8192px, durations and delays to 100s, counts to 10,000, steps to 1,000.'],
  placed: ['An element lacks its place, its size or its colour; its tag is marked below.',
    'Give it position: absolute, left, top, width, height and a background-color.'],
  body: ['The body has a property that only a box may have; its tag is marked below.',
    'Give the body a background colour and animations of it, and nothing else.'],
  animations: ['An element has a list of more than eight animation names; its tag is marked below.',
    'Use eight or fewer.'],
  other: ['The program printed something that this report does not know.',
    'Is the report’s template of another version?'],
};

function sayRefusal(answer) {
  const [sentence, advice] = REFUSALS[answer.kind];
  const mark = answer.kind === 'unread' || answer.kind === 'memory' ? 'No answer' : 'Refused';
  return {
    mark, title: 'The page was not judged', sentence: `Nothing is said of success criterion 2.3.1. ${sentence}`,
    facts: [['Told', answer.text || 'nothing']], heading: 'What to change', why: [advice],
  };
}

const SAYINGS = {fail: sayFail, pass: sayPass, frames: sayFrames, work: sayWork, enclosure: sayEnclosure};

// All that is said of an answer.
const say = (answer, words) => (SAYINGS[answer.kind] || sayRefusal)(answer, words);

const LIMITS = [
  'This report proves nothing. Its numbers are those that the program flash printed, which is proved to print them '
    + 'only where they hold; a report can be changed by anybody who hands it on. Where it matters, run the program '
    + 'on the page yourself.',
  'The pictures are painted by your own browser from the bytes of the page, without its scripts and with its '
    + 'animations held at the frame. Where a browser paints other colours than the standards’ text says, they may '
    + 'differ from the numbers.',
  'What was judged is the page’s boxes and their colours, in one viewport at one frame rate, by the reading of CSS '
    + 'and WCAG that flash writes down in docs/MODEL.md. Text, images, video and scripts are not part of it, nor is '
    + 'what a display does with the frames.',
];

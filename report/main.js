// Puts the report together.

const put = (id, text) => { document.getElementById(id).textContent = text; };
const made = (tag, text) => Object.assign(document.createElement(tag), {textContent: text});

// Pairs of a term and what is said of it.
function putPairs(id, pairs) {
  const parts = pairs.flatMap(([term, text]) => [made('dt', term), made('dd', text)]);
  document.getElementById(id).replaceChildren(...parts);
}

function putParagraphs(id, texts) {
  document.getElementById(id).replaceChildren(...texts.map((text) => made('p', text)));
}

// The verdict, in a sentence, and what it rests on.
function showVerdict(report) {
  const {words, answer} = report;
  const said = say(answer, words);
  const title = document.getElementById('verdict-title');
  const mark = made('span', said.mark);
  mark.className = 'mark';
  document.documentElement.dataset.verdict = said.mark.toLowerCase();
  title.replaceChildren(mark, document.createTextNode(` ${said.title}`));
  document.title = `${said.mark}: ${words.page} - flash report`;
  put('sentence', said.sentence);
  putPairs('facts', [...said.facts, ['Exit status', String(words.status)]]);
  putPairs('judged', [
    ['Page', words.page],
    ['Viewport', `${number(words.width)} by ${number(words.height)} pixels`],
    ['Rate', `${words.rate} frames per second`],
  ]);
  put('why-title', said.heading);
  putParagraphs('why-text', said.why);
  document.getElementById('why').hidden = false;
  putParagraphs('limits-text', LIMITS);
}

// A word as a shell reads it.
const quoted = (word) => (/^[\w./:@%+=,-]+$/.test(word) ? word : `'${word.replace(/'/g, "'\\''")}'`);

// The commands that judge the page and test the witness, and the witness as a file.
function showVerify(report) {
  const {words, answer} = report;
  const [page, called] = [quoted(words.page), quoted(words.called)];
  const check = `${called} check ${page} ${words.size} ${words.rate}`;
  const isFail = answer.kind === 'fail';
  const file = quoted(`${words.page.replace(/^.*\//, '').replace(/\.html?$/i, '')}.witness`);
  const verify = `${called} verify ${page} ${file} ${words.size} ${words.rate}`;
  put('verify-text', isFail
    ? 'The first command judges the page again and keeps the witness; the second tests the witness against the '
      + 'page, by code that shares with the first one only the states of the boxes, the painting of a pixel, and '
      + 'what a change is. It prints accepted.'
    : 'This judges the page again, and prints the line that this report was made from.');
  put('copy', isFail ? 'Copy the commands' : 'Copy the command');
  put('command', isFail ? `${check} >${file}\n${verify}` : check);
  const copy = document.getElementById('copy');
  copy.addEventListener('click', async () => {
    try {
      await navigator.clipboard.writeText(document.getElementById('command').textContent);
      put('copied', 'Copied.');
    } catch {
      getSelection().selectAllChildren(document.getElementById('command'));
      put('copied', 'Selected: copy it with your keyboard.');
    }
  });
  if (isFail) {
    const save = document.getElementById('save');
    save.href = URL.createObjectURL(new Blob([`${answer.text}\n`], {type: 'application/json'}));
    save.download = `${words.page.replace(/^.*\//, '').replace(/\.html?$/i, '')}.witness`;
    save.hidden = false;
  }
  document.getElementById('verify').hidden = false;
}

// What a page that was accepted looks like: where it fails, or at its first frame.
function showPage(report) {
  const {answer, words} = report;
  if (answer.kind === 'fail') {
    const text = `The page at frame ${number(answer.witness.start)}, where the second begins. The bold outline is `
      + 'the 341 by 256 rectangle, as far as it lies in the viewport; the thin ones, or what is tinted where there '
      + 'are many, are the parts that flash, and the dashed one is the part that is chosen.';
    showScene(report, answer.witness.start, answer.witness, answer.witness.parts, text);
    listenPlay(report);
    showParts(report);
  } else if (answer.kind === 'enclosure') {
    showScene(report, answer.start, answer, [], `The page at frame ${number(answer.start)}, `
      + `${seconds(secondsOf(words, answer.start))}, with the rectangle.`);
  } else {
    put('where-title', 'The page');
    showScene(report, 0, null, [], 'The page at its first frame. Nothing in this picture moves.');
  }
}

function main() {
  const words = readWords();
  const answer = readAnswer();
  const bytes = bytesOf('data-page');
  const report = {words, answer, witness: answer.witness, held: null, loaded: Promise.resolve(), from: 0};
  showVerdict(report);
  const at = placeOf(answer, bytes);
  if (at !== null) showPlace(bytes, at);
  if (bytes !== null && isAccepted(answer)) {
    report.held = heldText(bytes);
    showPage(report);
  }
  showVerify(report);
  listenLarge(report);
  return report;
}

// What a check in a browser asks after.
const report = main();

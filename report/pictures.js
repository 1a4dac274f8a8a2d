// The pictures: the page where it flashes, the nine frames of the chosen part, one of them in its full size, and the
// bad second played slowly, if its reader asks for it.

// However slow the tenth of a frame rate is, no more frames than these are shown in a second: three pairs of changes.
const MOST_FRAMES = 6;

// The rectangle, as far as it lies in the viewport.
function rectangleOf(report, spot) {
  const {width, height} = report.words;
  const [x, y] = [Math.max(spot.x, 0), Math.max(spot.y, 0)];
  const [right, down] = [Math.min(spot.x + RECTANGLE.width, width), Math.min(spot.y + RECTANGLE.height, height)];
  return {x, y, width: right - x, height: down - y};
}

// The page at the start of the second, with the rectangle and the parts outlined.
function showScene(report, frame, spot, parts, text) {
  const box = document.getElementById('scene');
  report.scene = new Picture(report, box, frame);
  report.sceneParts = parts;
  fitted(report, box);
  if (spot) outlineScene(report, spot, null);
  document.getElementById('scene-text').textContent = text;
  document.getElementById('where').hidden = false;
}

// Draws the outlines over the page anew, with the chosen part last.
function outlineScene(report, spot, chosen) {
  const box = document.getElementById('scene');
  box.querySelector('.outlines')?.remove();
  const groups = [['part', report.sceneParts], ['rectangle', [rectangleOf(report, spot)]]];
  box.append(outlinesOf(report, chosen ? [...groups, ['chosen', [chosen]]] : groups));
}

function picture(report, part, turn) {
  const item = document.createElement('li');
  const link = document.createElement('a');
  const box = document.createElement('div');
  const [head, colour] = [document.createElement('span'), document.createElement('span')];
  const frame = part.frames[turn];
  box.className = 'frame-box';
  const view = new Picture(report, box, frame);
  box.append(outlinesOf(report, [['chosen', [part]]]));
  fitted(report, box);
  head.className = 'picture-head';
  head.textContent = `Frame ${number(frame)}, ${seconds(secondsOf(report.words, frame))}`;
  colour.append(...swatch(part.tints[turn]));
  link.href = `#picture-${part.index}-${turn}`;
  link.append(box, head, colour);
  item.append(link);
  return {item, loaded: view.loaded};
}

// A tint as a patch of its colour and its text.
function swatch(tint) {
  const patch = document.createElement('span');
  patch.className = 'swatch';
  patch.style.setProperty('--low', `#${tint.text.slice(0, 6)}`);
  patch.style.setProperty('--high', `#${tint.text.slice(-6)}`);
  return [patch, document.createTextNode(` #${tint.text.replace('-', ' to #')}`)];
}

// The nine frames of a part.
function showStrip(report, part) {
  const made = part.frames.map((_, turn) => picture(report, part, turn));
  document.getElementById('strip').replaceChildren(...made.map((it) => it.item));
  report.loaded = Promise.all([report.scene.loaded, ...made.map((it) => it.loaded)]);
  document.getElementById('pictures-text').textContent = `The page at the nine frames of part `
    + `${number(part.index + 1)}, which is outlined. `
    + 'Your browser paints them; each opens in its full size.';
  document.getElementById('pictures').hidden = false;
}

// Shows the picture that the address names, or none: '#picture-PART-TURN', both from 0 on.
function showLarge(report) {
  const dialog = document.getElementById('large');
  const found = /^#picture-(\d+)-(\d)$/.exec(location.hash);
  const part = found && report.witness?.parts[Number(found[1])];
  const frame = part?.frames[Number(found[2])];
  const place = document.getElementById('large-scroll');
  place.replaceChildren();
  if (frame === undefined) {
    if (dialog.open) dialog.close();
    return;
  }
  const tint = part.tints[Number(found[2])];
  const title = `Frame ${number(frame)}, ${seconds(secondsOf(report.words, frame))}`;
  document.getElementById('large-title').textContent = title;
  const where = `Part ${number(part.index + 1)} is ${part.width} by ${part.height} pixels at ${part.x}, ${part.y}: `;
  document.getElementById('large-text').replaceChildren(where, ...swatch(tint));
  const box = document.createElement('div');
  box.className = 'frame-box full';
  box.style.width = `${report.words.width}px`;
  box.style.height = `${report.words.height}px`;
  place.append(box);
  report.large = new Picture(report, box, frame);
  if (!dialog.open) dialog.showModal();
  place.scrollTo(part.x + (part.width - place.clientWidth) / 2, part.y + (part.height - place.clientHeight) / 2);
}

// The large picture opens by its address, so that a step back closes it.
function listenLarge(report) {
  const dialog = document.getElementById('large');
  document.getElementById('large-close').addEventListener('click', () => dialog.close());
  dialog.addEventListener('close', () => {
    document.getElementById('large-scroll').replaceChildren();
    if (location.hash.startsWith('#picture-')) history.replaceState(null, '', location.pathname + location.search);
  });
  window.addEventListener('hashchange', () => showLarge(report));
  showLarge(report);
}

// How many frames a second are shown when the second is played: a tenth of the rate, and never more than six.
const slowRate = (words) => Math.min(words.frames / words.per / 10, MOST_FRAMES);

// Plays the bad second once, and then shows its first frame again.
function play(report, stopped) {
  const {words, witness} = report;
  const told = document.getElementById('play-frame');
  const began = performance.now();
  let shown = -1;
  const step = (now) => {
    const on = Math.floor((now - began) / 1000 * slowRate(words));
    if (report.playing && on <= windowOf(words)) {
      if (on > shown) {
        shown = on;
        report.scene.show(witness.start + on);
        told.textContent = `Frame ${number(witness.start + on)}`;
      }
      requestAnimationFrame(step);
      return;
    }
    report.scene.show(witness.start);
    told.textContent = '';
    stopped();
  };
  requestAnimationFrame(step);
}

// The button that plays asks first.
function listenPlay(report) {
  const [start, stop] = ['play-start', 'play-stop'].map((id) => document.getElementById(id));
  const ask = document.getElementById('ask');
  const slower = Math.round(report.words.frames / report.words.per / slowRate(report.words));
  document.getElementById('play').hidden = false;
  document.getElementById('ask-text').textContent = `The second is shown ${number(slower)} times slower than it is, `
    + `in the one picture of the page. `
    + 'Even so, do not play it where flashing may harm you or somebody who sees your screen. Escape or Stop ends it.';
  const show = (isPlaying) => {
    report.playing = isPlaying;
    [start.hidden, stop.hidden] = [isPlaying, !isPlaying];
  };
  start.addEventListener('click', () => ask.showModal());
  document.getElementById('ask-no').addEventListener('click', () => ask.close());
  document.getElementById('ask-yes').addEventListener('click', () => {
    ask.close();
    show(true);
    stop.focus();
    play(report, () => { show(false); start.focus(); });
  });
  stop.addEventListener('click', () => { report.playing = false; });
  document.addEventListener('keydown', (event) => {
    if (event.key === 'Escape') report.playing = false;
  });
}

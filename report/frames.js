// Pictures of the page: the page itself in a frame without scripts, its animations held at the time of a frame.
//
// Nothing in a picture ever moves by itself. The page is first loaded with nothing of it laid out, so that no
// animation begins; each element's animations are then paused by its own style, and only then it is shown.

// The page's text with a style in it by which nothing is laid out.
function heldText(bytes) {
  const parsed = new DOMParser().parseFromString(asText(bytes), 'text/html');
  const style = parsed.createElement('style');
  style.dataset.report = 'held';
  style.textContent = 'html{display:none!important}';
  parsed.head.append(style);
  return `<!DOCTYPE html>${parsed.documentElement.outerHTML}`;
}

const wordsOf = (list) => list.split(',').map((it) => it.trim());

// Pauses an element's animations, and returns its list of names with which of them the page itself has paused.
function pauseOf(element) {
  const style = element.ownerDocument.defaultView.getComputedStyle(element);
  const [names, states] = [wordsOf(style.animationName), wordsOf(style.animationPlayState)];
  element.style.setProperty('animation-play-state', 'paused', 'important');
  return names.map((name, at) => ({name, isPaused: states[at % states.length] === 'paused'}));
}

// An element's animations that run, in the order of its list of names.
function runningOf(element, listed) {
  let at = 0;
  return element.getAnimations().filter((animation) => {
    while (at < listed.length && listed[at].name !== animation.animationName) at += 1;
    at += 1;
    return at > listed.length || !listed[at - 1].isPaused;
  });
}

// What holds a loaded page's animations: a call that sets them all to a time in milliseconds.
function holderOf(page) {
  const elements = [page.body, ...page.body.querySelectorAll('*')];
  const listed = elements.map(pauseOf);
  page.querySelector('style[data-report=held]').remove();
  page.documentElement.style.setProperty('overflow', 'hidden', 'important');
  const running = elements.flatMap((element, at) => runningOf(element, listed[at]));
  return (time) => { for (const animation of running) animation.currentTime = time; };
}

// A picture of the page in a frame. It takes the width that its place has; `show(frame)` sets another frame.
class Picture {
  constructor(report, place, frame) {
    this.report = report;
    this.frame = frame;
    this.hold = null;
    this.view = document.createElement('iframe');
    // Without allow-scripts nothing of the page runs; with allow-same-origin its animations can be set from here.
    this.view.setAttribute('sandbox', 'allow-same-origin');
    this.view.setAttribute('scrolling', 'no');
    this.view.setAttribute('aria-hidden', 'true');
    this.view.tabIndex = -1;
    this.view.width = report.words.width;
    this.view.height = report.words.height;
    this.view.className = 'page-view';
    this.loaded = new Promise((done) => {
      this.view.addEventListener('load', () => { this.settle(); done(); }, {once: true});
    });
    this.view.srcdoc = report.held;
    place.append(this.view);
  }

  settle() {
    this.hold = holderOf(this.view.contentDocument);
    this.show(this.frame);
    this.view.classList.add('is-held');
  }

  show(frame) {
    this.frame = frame;
    if (this.hold) this.hold(1000 * frame * this.report.words.per / this.report.words.frames);
  }
}

// The outline of boxes as the data of one path: a page may have thousands.
const pathOf = (boxes) => boxes.map((it) => `M${it.x} ${it.y}h${it.width}v${it.height}h${-it.width}z`).join('');

function svg(name, attributes, ...parts) {
  const made = document.createElementNS('http://www.w3.org/2000/svg', name);
  for (const [key, value] of Object.entries(attributes)) made.setAttribute(key, value);
  made.append(...parts);
  return made;
}

// Lines across the picture to a box that is too small to be seen there, which leave the box itself free.
function pointer(report, box) {
  const {width, height} = report.words;
  if (box.width > width / 25 || box.height > height / 25) return '';
  const [x, y] = [box.x + box.width / 2, box.y + box.height / 2];
  const gap = width / 50;
  return `M0 ${y}H${x - gap}M${x + gap} ${y}H${width}M${x} 0V${y - gap}M${x} ${y + gap}V${height}`;
}

// So many outlines are told apart; more are tinted.
const MOST_OUTLINES = 100;

// Outlines over a picture: dark ones with a light rim, which show on every colour. The name tells what they are.
function outlinesOf(report, groups) {
  const {width, height} = report.words;
  const paths = groups.flatMap(([name, boxes]) => {
    if (boxes.length > MOST_OUTLINES) return [svg('path', {class: 'tinted', d: pathOf(boxes)})];
    const outline = pathOf(boxes) + (name === 'chosen' ? pointer(report, boxes[0]) : '');
    return ['rim', 'line'].map((kind) =>
      svg('path', {class: `${name} ${kind}`, d: outline, 'vector-effect': 'non-scaling-stroke'}));
  });
  return svg('svg', {class: 'outlines', viewBox: `0 0 ${width} ${height}`, 'aria-hidden': 'true'}, ...paths);
}

// Keeps a picture as wide as its place, by its scale.
function fitted(report, box) {
  const ratio = report.words.width / report.words.height;
  box.style.aspectRatio = ratio;
  box.style.maxWidth = `min(100%, ${Math.max(report.words.width, 640)}px, ${Math.round(80 * ratio)}vh)`;
  new ResizeObserver(() => {
    box.style.setProperty('--scale', box.clientWidth / report.words.width);
  }).observe(box);
}

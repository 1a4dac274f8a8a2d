// The graph of the chosen part, over the second: its relative luminance, or for a red part its share of red and the
// distance of each change. Only the nine frames of the witness are drawn; it states nothing between them.

const MARGIN = {left: 46, right: 14, top: 14, bottom: 40};

// Where a frame and a share lie in a graph of this size.
function scaleOf(words, start, width, height) {
  const inner = {width: width - MARGIN.left - MARGIN.right, height: height - MARGIN.top - MARGIN.bottom};
  return {
    width, height, inner,
    x: (frame) => MARGIN.left + inner.width * (frame - start) / windowOf(words),
    y: (share) => MARGIN.top + inner.height * (1 - share),
  };
}

const label = (x, y, text, more = {}) => svg('text', {x, y, ...more}, document.createTextNode(text));

// A line across the graph at a share.
const across = (scale, name, share) =>
  svg('line', {class: name, x1: MARGIN.left, x2: scale.width - MARGIN.right, y1: scale.y(share), y2: scale.y(share)});

// The lines of both scales, with their numbers.
function grid(scale, words, start) {
  const rows = [0, 0.2, 0.4, 0.6, 0.8, 1].flatMap((share) => [
    across(scale, 'grid', share),
    label(MARGIN.left - 12, scale.y(share) + 4, share.toFixed(1), {'text-anchor': 'end'}),
  ]);
  const quarters = scale.width < 480 ? [0, 2, 4] : [0, 1, 2, 3, 4];
  const columns = quarters.flatMap((quarter) => {
    const frame = start + windowOf(words) * quarter / 4;
    const [anchor, time] = [['start', 'middle', 'middle', 'middle', 'end'][quarter], secondsOf(words, frame)];
    return [
      svg('line', {class: 'grid', x1: scale.x(frame), x2: scale.x(frame), y1: MARGIN.top, y2: scale.y(0)}),
      label(scale.x(frame), scale.height - MARGIN.bottom + 18, seconds(time), {'text-anchor': anchor}),
    ];
  });
  return [...rows, ...columns];
}

// A tint's least and greatest value, by a function of a colour.
function rangeOf(tint, value) {
  const both = [value(tint.low), value(tint.high)];
  return {low: Math.min(...both), high: Math.max(...both), middle: (both[0] + both[1]) / 2};
}

// The eight changes: each a line between two frames with its sign in the middle, up or down.
function changeLines(scale, part, values) {
  return changesOf(part).flatMap((change, at) => {
    const from = {x: scale.x(part.frames[at]), y: scale.y(values[at].middle)};
    const to = {x: scale.x(part.frames[at + 1]), y: scale.y(values[at + 1].middle)};
    const middle = {x: (from.x + to.x) / 2, y: (from.y + to.y) / 2};
    const [tip, foot] = change.isUp ? [-6, 5] : [6, -5];
    const name = change.isUp ? 'up' : 'down';
    return [
      svg('line', {class: `change ${name}`, x1: from.x, y1: from.y, x2: to.x, y2: to.y}),
      svg('path', {class: `sign ${name}`, d: `M${middle.x} ${middle.y + tip}l6 ${foot - tip}h-12z`}),
    ];
  });
}

// The nine frames: a dot in the colour that the part has there, and a bar where only bounds of it are known.
function dots(scale, part, values) {
  return part.tints.flatMap((tint, at) => {
    const x = scale.x(part.frames[at]);
    const {low, high, middle} = values[at];
    const bar = svg('line', {class: 'bounds', x1: x, x2: x, y1: scale.y(low), y2: scale.y(high)});
    const dot = svg('circle', {class: 'dot', cx: x, cy: scale.y(middle), r: 6, fill: `#${tint.text.slice(0, 6)}`});
    return low === high ? [dot] : [bar, dot];
  });
}

// For a red part: how far apart each two neighbours are, as bars from below, with the line that they pass.
function distances(scale, part) {
  const bars = changesOf(part).map((change, at) => {
    const [from, to] = [scale.x(part.frames[at]), scale.x(part.frames[at + 1])];
    const top = scale.y(Math.min(change.by, 1));
    const width = Math.max(to - from - 4, 2);
    return svg('rect', {class: 'distance', x: from + 2, y: top, width, height: scale.y(0) - top});
  });
  return [...bars, across(scale, 'limit', 0.2)];
}

// Draws the graph of a part as wide as its place.
function drawGraph(report, part) {
  const place = document.getElementById('graph');
  const {words, witness} = report;
  const scale = scaleOf(words, witness.start, Math.max(place.clientWidth, 280), 280);
  const isRed = part.kind === 'red';
  const values = part.tints.map((tint) => rangeOf(tint, isRed ? redShareOf : luminanceOf));
  const head = {viewBox: `0 0 ${scale.width} ${scale.height}`, role: 'img', 'aria-labelledby': 'graph-text'};
  const drawn = svg('svg', head, ...grid(scale, words, witness.start),
    ...(isRed ? distances(scale, part) : []), across(scale, 'limit', 0.8),
    ...changeLines(scale, part, values), ...dots(scale, part, values));
  place.replaceChildren(drawn);
}

// What the graph shows, in words.
function graphText(part) {
  if (part.kind === 'red') {
    return 'The share of red in the light of the part at its nine frames (dots; from 0.8 on, the dashed line, it is '
      + 'a saturated red), with the changes into red (▲) and out of red (▼); the bars are their distances in the '
      + 'CIE 1976 diagram (u′v′), which are more than 0.2, the lower dashed line. Between the nine frames nothing '
      + 'is stated.';
  }
  return 'The relative luminance of the part at its nine frames (dots), with the rises (▲) and falls (▼) between '
    + 'them; each is by 0.1 or more, and its darker end is below 0.8, the dashed line. Between the nine frames '
    + 'nothing is stated.';
}

// Light as WCAG 2.2 defines it, for showing: the verdict rests on the program's own exact numbers, not on these.

// The linear light of a channel, from 0 to 1.
function linearOf(channel) {
  const share = channel / 255;
  return share <= 0.04045 ? share / 12.92 : ((share + 0.055) / 1.055) ** 2.4;
}

// The relative luminance of a colour.
function luminanceOf(colour) {
  const [r, g, b] = colour.map(linearOf);
  return 0.2126 * r + 0.7152 * g + 0.0722 * b;
}

// The share of red in the linear light of a colour: from 0.8 on it is a saturated red.
function redShareOf(colour) {
  const [r, g, b] = colour.map(linearOf);
  return r + g + b === 0 ? 0 : r / (r + g + b);
}

// The point (u', v') of a colour in the CIE 1976 diagram. Black takes that of white.
function chromaticityOf(colour) {
  const [r, g, b] = (colour.every((it) => it === 0) ? [255, 255, 255] : colour).map(linearOf);
  const x = 0.4124 * r + 0.3576 * g + 0.1805 * b;
  const y = 0.2126 * r + 0.7152 * g + 0.0722 * b;
  const z = 0.0193 * r + 0.1192 * g + 0.9505 * b;
  const over = x + 15 * y + 3 * z;
  return [4 * x / over, 9 * y / over];
}

// How far apart two colours are in that diagram.
function distanceOf(one, other) {
  const [a, b] = [chromaticityOf(one), chromaticityOf(other)];
  return Math.hypot(a[0] - b[0], a[1] - b[1]);
}

// The eight changes of a part's nine tints, as they are told: what each is, and by how much at least.
function changesOf(part) {
  return part.tints.slice(1).map((later, at) => {
    const earlier = part.tints[at];
    if (part.kind === 'red') {
      const isInto = redShareOf(later.low) > redShareOf(earlier.low);
      return {isUp: isInto, word: isInto ? 'into red' : 'out of red', by: distanceOf(earlier.low, later.low)};
    }
    const rise = luminanceOf(later.low) - luminanceOf(earlier.high);
    const fall = luminanceOf(earlier.low) - luminanceOf(later.high);
    const isUp = rise > fall;
    return {isUp, word: isUp ? 'rise' : 'fall', by: Math.max(rise, fall)};
  });
}

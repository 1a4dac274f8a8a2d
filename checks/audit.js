// What a report is asked in a browser: an expression that gives the faults of its layout, its contrast, its names and
// its movement, as a list of texts.
(() => {
  const faults = [];
  const isShown = (it) => it.checkVisibility({visibilityProperty: true}) && it.getClientRects().length > 0;

  // Nothing is wider than the window, but what stands in a region that scrolls by itself.
  const {clientWidth: width, scrollWidth: taken} = document.documentElement;
  if (taken > width) faults.push(`the page is ${taken} wide in ${width}`);
  for (const it of document.querySelectorAll('main *, header *')) {
    const box = it.getBoundingClientRect();
    if (!isShown(it) || it.closest('.wide, .excerpt, .command, .frame-box, .skip') || box.width === 0) continue;
    const isIn = box.left >= -1 && box.right <= width + 1;
    if (!isIn) faults.push(`${it.tagName} ${it.id || it.className} goes from ${box.left} to ${box.right}`);
  }

  // Text has a contrast of 4.5 to 1 with what is behind it.
  const parsed = (text) => {
    const [r, g, b, a = 1] = text.match(/[\d.]+/g).map(Number);
    return {r, g, b, a};
  };
  const over = (top, low) => {
    const mixed = (name) => top[name] * top.a + low[name] * (1 - top.a);
    return {r: mixed('r'), g: mixed('g'), b: mixed('b'), a: 1};
  };
  const behind = (it) => {
    const layers = [];
    for (let at = it; at; at = at.parentElement) {
      const colour = parsed(getComputedStyle(at).backgroundColor);
      layers.push(colour);
      if (colour.a === 1) break;
    }
    return layers.reduceRight((low, top) => over(top, low), {r: 255, g: 255, b: 255, a: 1});
  };
  const linear = (it) => (it <= 10.31475 ? it / 255 / 12.92 : ((it / 255 + 0.055) / 1.055) ** 2.4);
  const light = (it) => 0.2126 * linear(it.r) + 0.7152 * linear(it.g) + 0.0722 * linear(it.b);
  const contrast = (one, other) => {
    const [high, low] = [light(one), light(other)].sort((a, b) => b - a);
    return (high + 0.05) / (low + 0.05);
  };
  const walker = document.createTreeWalker(document.body, NodeFilter.SHOW_TEXT);
  let least = 21;
  for (let node = walker.nextNode(); node; node = walker.nextNode()) {
    const it = node.parentElement;
    const isHidden = it.closest('script, style, noscript, .skip, dialog:not([open])') || !isShown(it);
    if (isHidden || !node.textContent.trim()) continue;
    const style = getComputedStyle(it);
    const ground = behind(it);
    const found = contrast(over(parsed(it instanceof SVGElement ? style.fill : style.color), ground), ground);
    least = Math.min(least, found);
    if (found < 4.5) faults.push(`contrast ${found.toFixed(2)} of ${node.textContent.trim().slice(0, 40)}`);
  }

  // What can be used has a name, a size, and its place in the order of the keys.
  for (const it of document.querySelectorAll('button, a[href], input, [tabindex="0"]')) {
    if (!isShown(it) || it.closest('.skip')) continue;
    const name = it.getAttribute('aria-label') || it.textContent.trim() || it.labels?.[0]?.textContent.trim();
    if (!name) faults.push(`${it.tagName} ${it.id} has no name`);
    if (it.tabIndex < 0) faults.push(`${it.tagName} ${it.id} isn't reached by keys`);
    const {height} = it.getBoundingClientRect();
    if (height < 24) faults.push(`${it.tagName} ${name} is ${height} high`);
  }
  const levels = [...document.querySelectorAll('main h1, main h2')].filter(isShown).map((it) => it.tagName);
  if (levels[0] !== 'H1' || levels.filter((it) => it === 'H1').length !== 1) faults.push(`headings: ${levels}`);
  const ids = [...document.querySelectorAll('[id]')].map((it) => it.id);
  for (const id of ids.filter((it, at) => ids.indexOf(it) !== at)) faults.push(`two elements have the id ${id}`);
  for (const it of document.querySelectorAll('[aria-labelledby]')) {
    const named = document.getElementById(it.getAttribute('aria-labelledby'));
    if (isShown(it) && !named?.textContent.trim()) faults.push(`${it.tagName} ${it.id} is named by nothing`);
  }

  // Nothing moves: neither the report nor any picture in it.
  const frames = [...document.querySelectorAll('iframe')];
  const moving = [document, ...frames.map((it) => it.contentDocument)].flatMap((it) => it.getAnimations());
  for (const it of moving.filter((one) => one.playState === 'running')) faults.push(`${it.animationName} runs`);
  for (const it of frames) {
    if (!it.classList.contains('is-held')) faults.push('a picture isn’t shown');
    if (it.getAttribute('sandbox') !== 'allow-same-origin') faults.push('a picture isn’t sandboxed');
  }
  return {faults, least: least.toFixed(2), pictures: frames.length};
})()

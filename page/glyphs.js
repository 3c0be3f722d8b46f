// The shapes of the drawing: requests are arrows to the right, replies are round and open, records are tickets.

// how much larger a message is that stands for so many processors
function sizeFor(members) {
  return Math.min(1.42, 1 + 0.1 * Math.log2(members));
}

function glyphWidth(text, members) {
  return Math.round((text.length * 13 + 48) * sizeFor(members));
}

function disc(p, x, y, r, filled) {
  const colour = colourOf(p);
  const g = draw('g', {});
  g.append(draw('circle', { cx: x, cy: y, r, fill: filled ? colour : '#fff', stroke: filled ? '#fff' : colour,
    'stroke-width': 1.5 }));
  g.append(draw('text', { x, y: y + r * 0.38, 'text-anchor': 'middle', 'font-size': r * 1.15, style: 'fill:'
    + (filled ? '#fff' : colour), class: 'strong' }, String(p)));
  return g;
}

// a dot for each processor of a group, in the order in which they are served
function dotsOf(group, width, y) {
  const g = draw('g', {});
  if (group.length === 1) return g;
  if (group.length > 8) {
    g.append(draw('text', { x: 0, y: y + 5, 'text-anchor': 'middle', class: 'times' }, '\u00d7' + group.length));
    return g;
  }
  const pitch = Math.min(11, width / group.length);
  group.forEach((p, i) => {
    g.append(draw('circle', { cx: (i - (group.length - 1) / 2) * pitch, cy: y, r: 4.6, fill: colourOf(p),
      class: 'dot' }));
  });
  return g;
}

function messageGlyph(kind, text, leader, group) {
  const size = sizeFor(group.length), h = 34 * size, w = glyphWidth(text, group.length);
  const g = draw('g', { class: 'glyph' });
  const tip = 12 * size, left = -w / 2, right = w / 2;
  const request = kind === 'request';
  if (request) {
    const path = `M${left} ${-h / 2}H${right - tip}L${right} 0L${right - tip} ${h / 2}H${left}Z`;
    g.append(draw('path', { d: path, fill: colourOf(leader), class: 'body' }));
  } else {
    const end = right - h / 2, corner = left + tip;
    const path = `M${corner} ${-h / 2}H${end}A${h / 2} ${h / 2} 0 0 1 ${end} ${h / 2}H${corner}L${left} 0Z`;
    g.append(draw('path', { d: path, stroke: colourOf(leader), class: 'body open' }));
  }
  const r = 11 * size, x = request ? left + r + 4 : right - r - 5;
  g.append(disc(leader, x, 0, r, !request));
  const middle = request ? (x + r + right - tip * 0.5) / 2 : (left + tip * 0.6 + x - r) / 2;
  const label = draw('text', { x: middle, y: 7.6 * size, 'text-anchor': 'middle', 'font-size': 21.5 * size,
    class: request ? 'strong light' : 'strong' }, text);
  g.append(label, dotsOf(group, w - 4, h / 2 + 5));
  return g;
}

const recordHeight = 21;

function recordWidth(text) {
  return Math.round(text.length * 10 + 60);
}

// second <- leader, function
function recordGlyph(it, text) {
  const w = recordWidth(text), h = recordHeight;
  const g = draw('g', { class: 'glyph' });
  g.append(draw('rect', { x: -w / 2, y: -h / 2, width: w, height: h, rx: 3, class: 'ticket',
    stroke: colourOf(it.leader) }));
  g.append(disc(it.second, -w / 2 + 10, 0, 8, true));
  g.append(draw('path', { d: `M${-w / 2 + 20} 0h7m-7 0l3 -3m-3 3l3 3`, class: 'pointer' }));
  g.append(disc(it.leader, -w / 2 + 37, 0, 8, false));
  g.append(draw('text', { x: -w / 2 + 50, y: 5.6, 'font-size': 16, class: 'strong' }, text));
  return g;
}

// ---- processors, modules and switches

function statusText(view, p) {
  if (view.word[p] >= 0) return 'waits: ' + wordName(view.word[p]);
  return view.status[p] === 'run' ? 'runs' : view.status[p];
}

function processorGlyph(view, p, x, y, w, h, instruction) {
  const g = draw('g', { class: 'processor ' + view.status[p].split(' ')[0] + (view.word[p] >= 0 ? ' waits' : '') });
  const low = h < 40;
  g.append(draw('rect', { x, y: y + 2, width: w, height: h - 4, rx: 8, class: 'box' }));
  g.append(disc(p, x + (low ? 16 : 24), y + h / 2, low ? 9 : 17, true));
  if (low) {
    g.append(draw('text', { x: x + 34, y: y + h / 2 + 5, class: 'small' }, statusText(view, p)));
    return g;
  }
  g.append(draw('text', { x: x + 49, y: y + 27, class: 'state' }, statusText(view, p)));
  g.append(draw('text', { x: x + 49, y: y + 51, class: 'mono' }, pcText(view.pc[p])));
  const shown = view.status[p] !== 'run' ? '' : instruction.length > 24 ? instruction.slice(0, 23) + '\u2026'
    : instruction;
  g.append(draw('text', { x: x + 49, y: y + 75, class: 'mono faint' }, shown));
  return g;
}

function moduleGlyph(module, x, y, w, h) {
  const g = draw('g', { class: 'module' });
  g.append(draw('rect', { x, y: y + 2, width: w, height: h - 4, rx: 8, class: 'box' }));
  g.append(draw('text', { x: x + w - 10, y: y + (h < 40 ? h / 2 + 5 : 20), 'text-anchor': 'end', class: 'small' },
    'module ' + module));
  return g;
}

function wordGlyph(word, value, isOpen) {
  const g = draw('g', { class: 'word' + (isOpen ? ' open' : '') });
  const text = draw('text', { x: 0, y: 0, 'text-anchor': 'end', class: isOpen ? 'value' : 'value faint' },
    shortValue(value));
  g.append(draw('text', { x: -Math.max(1, shortValue(value).length) * (isOpen ? 18.5 : 11.5) - 8, y: 0,
    'text-anchor': 'end', class: 'small' }, wordName(word) + ' ='), text);
  return g;
}

function switchGlyph(layout, column, row) {
  const x = layout.x[column], y = layout.y[column][row], w = layout.w[column];
  const h = layout.h[column][row] + layout.h[column][row + 1];
  const g = draw('g', { class: 'switch' });
  g.append(draw('rect', { x, y: y + 3, width: w, height: h - 6, rx: 8, class: 'box' }));
  g.append(draw('line', { x1: x + 10, x2: x + w - 10, y1: y + layout.h[column][row], y2: y + layout.h[column][row],
    class: 'between' }));
  for (const at of [row, row + 1]) {
    g.append(draw('text', { x: x + w + 4, y: middleOf(layout, column, at) - 5, class: 'wire-name' }, String(at)));
  }
  return g;
}

// The whole drawing of a view. Everything that can be pointed at is an element with a key, which stays the same element
// while it is the same thing: `m3` the message that processor 3 leads, `r3` the record by which 3 waits, `p3`, `w3`,
// `s1.2`.

const stage = { layout: null, parts: {}, items: new Map(), keyed: new Map(), compact: false };

function setUpStage(svg) {
  stage.svg = svg;
  stage.camera = draw('g', { class: 'camera' });
  for (const it of ['wires', 'heads', 'switches', 'processors', 'modules', 'words', 'items', 'ghosts']) {
    stage.parts[it] = draw('g', { class: it });
    stage.camera.append(stage.parts[it]);
  }
  svg.append(stage.camera);
}

function columnName(k, column) {
  return column === 0 ? 'processors' : column <= k ? 'stage ' + (column - 1) : 'modules';
}

function wirePath(layout, column, row) {
  const before = rowBefore(layout, column, row);
  return { x1: layout.x[column - 1] + layout.w[column - 1], y1: middleOf(layout, column - 1, before),
    x2: layout.x[column], y2: middleOf(layout, column, row) };
}

// draws what does not change while the layout stays: wires, names of columns, switches
function drawFrame(layout) {
  const { wires, heads, switches } = stage.parts;
  wires.replaceChildren();
  heads.replaceChildren();
  switches.replaceChildren();
  for (let column = 0; column <= layout.k + 1; column++) {
    heads.append(draw('text', { x: layout.x[column] + layout.w[column] / 2, y: layout.top - 12,
      'text-anchor': 'middle', class: 'head' }, columnName(layout.k, column)));
    for (let row = 0; row < layout.n; row++) {
      if (column > 0) {
        const p = wirePath(layout, column, row), bend = (p.x2 - p.x1) * 0.45;
        wires.append(draw('path',
          { d: `M${p.x1} ${p.y1}C${p.x1 + bend} ${p.y1} ${p.x2 - bend} ${p.y2} ${p.x2} ${p.y2}`, 'data-wire': column
          + '.' + row }));
      }
      if (column > 0 && column <= layout.k && row % 2 === 0) {
        const g = switchGlyph(layout, column, row);
        keep(g, 's' + (column - 1) + '.' + row / 2, 'stage ' + (column - 1) + ', switch of wires ' + row + ' and '
          + (row + 1));
        switches.append(g);
      }
    }
  }
}

// makes an element something that can be pointed at and read out
function keep(element, key, text) {
  element.setAttribute('data-key', key);
  element.setAttribute('role', 'img');
  element.setAttribute('tabindex', '0');
  element.setAttribute('aria-label', text);
  stage.keyed.set(key, element);
}

// What stands in the network of a view: for each item its key, its text and how it is drawn where.
function itemsOf(view, layout) {
  const seconds = secondsOf(view);
  const items = [];
  for (let depth = 0; depth <= view.k; depth++) {
    for (let wire = 0; wire < view.n; wire++) {
      if (view.places[depth * view.n + wire] === '') continue;
      const here = itemsAt(view, depth, wire);
      const add = (kind, it, extra) => items.push(Object.assign({ kind, depth, wire, it, leader: it.leader }, extra));
      const requests = here.requests.map((it) => ({ group: groupOf(seconds, depth, it.leader),
        short: shortFunction(it.f) }));
      const replies = here.replies.map((it) => ({ group: groupOf(seconds, depth, it.leader),
        short: shortValue(it.value) }));
      const spots = layout && requestSpots(layout, depth, wire, requests.map((x) => glyphWidth(x.short,
        x.group.length)));
      const backs = layout && replySpots(layout, depth, wire, replies.map((x) => glyphWidth(x.short, x.group.length)));
      here.replies.forEach((it, i) => add('reply', it, Object.assign(replies[i], { key: 'm' + it.leader,
        text: replyText(it, replies[i].group), spot: backs && backs[i] })));
      here.records.forEach((it, i) => add('record', it, { key: 'r' + it.second, text: recordText(it),
        short: shortFunction(it.f),
        spot: layout && recordSpot(layout, depth, wire, i, recordWidth(shortFunction(it.f))) }));
      here.requests.forEach((it, i) => add('request', it, Object.assign(requests[i], { key: 'm' + it.leader,
        text: requestText(it, requests[i].group), spot: spots && spots[i] })));
    }
  }
  return items;
}

// draws a view; the elements of items that stay are kept
function drawView(view, instructionAt) {
  const layout = !stage.compact && stage.layout && !stage.layout.compact ? stage.layout : makeLayout(view.k,
    stage.compact ? view : null);
  layout.compact = stage.compact;
  if (layout !== stage.layout) {
    stage.layout = layout;
    stage.keyed.clear();
    drawFrame(layout);
  }
  drawProcessors(view, layout, instructionAt);
  drawModules(view, layout);
  const items = itemsOf(view, layout);
  const seen = new Map();
  for (const it of items) {
    const old = stage.items.get(it.key);
    const looks = it.kind + it.short + (it.group || '') + it.leader;
    let element = old && old.looks === looks ? old.element : null;
    if (!element) {
      element = draw('g', { class: 'item ' + it.kind });
      element.append(it.kind === 'record' ? recordGlyph(it.it, it.short) : messageGlyph(it.kind, it.short, it.leader,
        it.group));
      stage.parts.items.append(element);
    }
    keep(element, it.key, it.text);
    element.setAttribute('data-text', it.text);
    element.setAttribute('transform', `translate(${it.spot.x.toFixed(1)} ${it.spot.y.toFixed(1)})`);
    seen.set(it.key, Object.assign(it, { element, looks }));
  }
  const before = stage.items;
  for (const [key, old] of before) {
    const now = seen.get(key);
    if (!now || now.element !== old.element) old.element.remove();
    if (!now) stage.keyed.delete(key);
  }
  stage.items = seen;
  return before;
}

function drawProcessors(view, layout, instructionAt) {
  const part = stage.parts.processors;
  for (let p = 0; p < view.n; p++) {
    const old = part.children[p];
    const instruction = instructionAt(view.pc[p]);
    const looks = [processorText(view, p), instruction, layout.y[0][p], layout.h[0][p]].join('|');
    if (old && old.getAttribute('data-looks') === looks) { stage.keyed.set('p' + p, old); continue; }
    const g = processorGlyph(view, p, layout.x[0], layout.y[0][p], layout.w[0], layout.h[0][p], instruction);
    g.setAttribute('data-looks', looks);
    keep(g, 'p' + p, processorText(view, p));
    g.setAttribute('data-text', processorText(view, p));
    if (old) old.replaceWith(g); else part.append(g);
  }
}

// the words that are not 0, of each module that has any
function wordsByModule(view) {
  const words = new Map();
  for (const [word, value] of view.words) {
    if (value === 0) continue;
    if (!words.has(word % view.n)) words.set(word % view.n, []);
    words.get(word % view.n).push(word);
  }
  return words;
}

// the words that a module shows: those that are referred to, and if there is room others that are not 0
function wordsShown(view, module, words) {
  const open = openWordsOf(view, module);
  const others = (words.get(module) || []).filter((word) => !open.includes(word));
  return { open, others: others.sort((a, b) => a - b) };
}

function drawModules(view, layout) {
  const { modules, words } = stage.parts;
  const column = view.k + 1, x = layout.x[column], w = layout.w[column];
  const known = wordsByModule(view);
  words.replaceChildren();
  for (const key of stage.keyed.keys()) if (key[0] === 'w') stage.keyed.delete(key);
  if (modules.layout !== layout) modules.replaceChildren();
  modules.layout = layout;
  for (let module = 0; module < view.n; module++) {
    const y = layout.y[column][module], h = layout.h[column][module];
    if (modules.children.length <= module) {
      const g = moduleGlyph(module, x, y, w, h);
      keep(g, 'd' + module, 'module ' + module);
      modules.append(g);
    }
    stage.keyed.set('d' + module, modules.children[module]);
    if (h < 40) continue;
    const { open, others } = wordsShown(view, module, known);
    const room = open.concat(others.slice(0, Math.max(0, 2 - open.length)));
    room.forEach((word, i) => {
      const g = wordGlyph(word, view.words.get(word) || 0, i < open.length);
      keep(g, 'w' + word, wordText(word, view.words.get(word) || 0));
      g.setAttribute('data-text', wordText(word, view.words.get(word) || 0));
      const pitch = Math.min(28, 48 / Math.max(1, room.length - 1));
      g.setAttribute('transform', `translate(${x + w - 10} ${y + (room.length === 1 ? 60 : 47 + i * pitch)})`);
      words.append(g);
    });
  }
}

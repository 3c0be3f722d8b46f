// Moves: from one step to the next what stays is moved along its wire, what is combined is merged, what is answered is
// split off. The drawing is in its new state already; this only shows how it came to be.

const running = new Set();

function stopMotion() {
  for (const it of running) it.cancel();
  running.clear();
  stage.parts.ghosts.replaceChildren();
  for (const it of document.querySelectorAll('.scene .busy')) it.classList.remove('busy');
}

function animate(element, frames, time, delay, then) {
  const it = element.animate(frames, { duration: time, delay: delay || 0, easing: 'ease-in-out', fill: 'backwards' });
  running.add(it);
  it.onfinish = () => { running.delete(it); if (then) then(); };
}

function frame(at, more) {
  return Object.assign({ transform: `translate(${at.x}px, ${at.y}px)` }, more);
}

// the column in which an item of a kind at a depth stands
function columnOf(it, k) {
  return it.kind === 'reply' ? it.depth + 1 : it.depth;
}

// the ends of the wire between two columns, in the direction of the move
function alongWire(layout, column, row, back) {
  const p = wirePath(layout, column, row);
  const ends = [{ x: p.x1, y: p.y1 }, { x: p.x2, y: p.y2 }];
  return back ? ends.reverse() : ends;
}

function busyWire(column, row) {
  for (const it of stage.parts.wires.querySelectorAll(`[data-wire="${column}.${row}"]`)) it.classList.add('busy');
}

function ghostOf(old) {
  const g = old.element.cloneNode(true);
  for (const it of ['data-key', 'data-text', 'tabindex', 'role', 'aria-label']) g.removeAttribute(it);
  g.setAttribute('aria-hidden', 'true');
  stage.parts.ghosts.append(g);
  return g;
}

function pulse(element, time, delay) {
  const glyph = element.querySelector('.glyph, .value') || element;
  animate(glyph, [{ transform: 'scale(1)' }, { transform: 'scale(1.3)' }, { transform: 'scale(1)' }], time, delay);
}

// Shows a step, told as data, that led from the items before to those that are drawn now.
function showMotion(outcome, before, time) {
  const layout = stage.layout, k = layout.k, now = stage.items;
  const gone = (key, path, part) => {
    const g = ghostOf(before.get(key));
    const frames = path.map((at) => frame(at, { opacity: 1 }));
    frames[frames.length - 1].opacity = 0.15;
    animate(g, frames, time * part, 0, () => g.remove());
  };
  const come = (it, path, delay) => animate(it.element, path.map((at, i) => frame(at, { opacity: i ? 1 : 0 })),
    time - delay, delay);

  if (outcome.kind === SEND) {
    const it = now.get('m' + outcome.p);
    if (it) come(it, [{ x: layout.x[0] + 24, y: it.spot.y }, it.spot], 0);
  } else if (outcome.kind === MOVE || outcome.kind === JOIN) {
    const key = outcome.kind === JOIN ? 'm' + outcome.second : [...now.keys()].find((it) => {
      const old = before.get(it), item = now.get(it);
      return old && old.kind === 'request' && item.depth === outcome.stage + 1 && old.depth === outcome.stage
        && old.wire === outcome.wire;
    });
    const old = key && before.get(key);
    if (!old) return;
    const target = outcome.kind === JOIN ? now.get('m' + outcome.leader) : now.get(key);
    if (!target) return;
    const row = rotatedLeft(k, outcome.wire);
    busyWire(outcome.stage + 1, row);
    const path = [old.spot, ...alongWire(layout, outcome.stage + 1, row), target.spot];
    if (outcome.kind === MOVE) {
      animate(target.element, path.map((at) => frame(at)), time);
    } else {
      gone(key, path, 0.75);
      pulse(target.element, time * 0.4, time * 0.6);
      const record = now.get('r' + outcome.second);
      if (record) come(record, [target.spot, record.spot], time * 0.65);
    }
  } else if (outcome.kind === SERVE) {
    const key = 'm' + outcome.group[0], old = before.get(key), it = now.get(key);
    if (!old || !it) return;
    const column = k + 1, inside = { x: layout.x[column] + layout.w[column] * 0.7, y: it.spot.y };
    busyWire(column, outcome.module);
    gone(key, [old.spot, ...alongWire(layout, column, outcome.module), inside], 0.6);
    come(it, [inside, it.spot], time * 0.55);
    const word = stage.keyed.get('w' + outcome.word);
    if (word) pulse(word, time * 0.5, time * 0.5);
  } else if (outcome.kind === BACK || outcome.kind === SPLIT) {
    showReturn(outcome, before, time, come, gone);
  } else if (outcome.kind === RETIRE && before.has('m' + outcome.p) && !now.has('m' + outcome.p)) {
    const old = before.get('m' + outcome.p);
    const row = k ? rotatedLeft(k, outcome.p) : outcome.p;
    busyWire(1, row);
    const home = { x: layout.x[0] + 24, y: middleOf(layout, 0, outcome.p) };
    gone('m' + outcome.p, [old.spot, ...alongWire(layout, 1, row, true), home], 0.9);
  }
}

// a reply goes back through a switch, and may be split there
function showReturn(outcome, before, time, come, gone) {
  const layout = stage.layout, depth = outcome.stage + 1, column = depth + 1;
  const row = depth < layout.k ? rotatedLeft(layout.k, outcome.wire) : outcome.wire;
  // the reply that stood there and is now a stage nearer to the processors
  const lead = [...before.values()].find((old) => {
    const now = stage.items.get(old.key);
    return old.kind === 'reply' && old.depth === depth && old.wire === outcome.wire && now && now.depth === depth - 1;
  });
  if (!lead) return;
  busyWire(column, row);
  const way = [lead.spot, ...alongWire(layout, column, row, true)];
  const it = stage.items.get(lead.key);
  animate(it.element, [...way, it.spot].map((at) => frame(at)), time);
  for (const p of outcome.seconds || []) {
    const record = before.get('r' + p), reply = stage.items.get('m' + p);
    if (!record || !reply) continue;
    gone('r' + p, [record.spot, record.spot, way[2]], 0.62);
    come(reply, [way[2], reply.spot], time * 0.6);
  }
}

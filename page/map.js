// The map of a large machine: a cell for each switch of each stage, the darker the more stands in its queues. From
// left to
// right in a cell: replies at its inputs, records in its wait buffers, requests at its outputs.

const map = { on: false, size: null, cells: [], part: null };

function mapShown() {
  return map.on;
}

const cellWidth = 104, cellHeight = 22, cellPitch = 27, mapTop = 44;

function setUpMap(k) {
  const n = 1 << k, half = Math.max(1, n / 2);
  map.k = k;
  map.left = (column) => column === 0 ? 20 : 130 + (column - 1) * (cellWidth + 34);
  map.size = { width: map.left(k + 1) + 176, height: mapTop + half * cellPitch + 16 };
  map.part = draw('g', { class: 'map' });
  stage.camera.append(map.part);
  for (let column = 0; column <= k + 1; column++) {
    map.part.append(draw('text', { x: map.left(column) + (column === 0 || column > k ? 42 : cellWidth / 2),
      y: mapTop - 14, 'text-anchor': 'middle', class: 'head' }, columnName(k, column)));
  }
  const wires = draw('g', { class: 'wires' });
  for (let column = 1; column < k; column++) {
    for (let row = 0; row < n; row++) {
      const before = rotatedRight(k, row);
      wires.append(draw('line', { x1: map.left(column) + cellWidth, y1: mapTop + (before >> 1) * cellPitch
        + cellHeight * (before & 1 ? 0.7 : 0.3),
        x2: map.left(column + 1), y2: mapTop + (row >> 1) * cellPitch + cellHeight * (row & 1 ? 0.7 : 0.3) }));
    }
  }
  map.part.append(wires);
  for (let stage = 0; stage < k; stage++) for (let row = 0; row < half; row++) map.cells.push(makeCell(stage, row));
  map.ends = [];
  for (let it = 0; it < n; it++) {
    // the wires of processors p and p + n / 2 meet in the first stage, those of modules 2m and 2m + 1 in the last
    map.ends.push({
      processor: makeEnd('p' + it, map.left(0) + (it >= half ? 44 : 0), mapTop + (it % half) * cellPitch, 38),
      module: makeEnd('d' + it, map.left(k + 1) + (it & 1 ? 78 : 0), mapTop + (it >> 1) * cellPitch, 72),
    });
  }
}

function makeCell(stageNumber, row) {
  const x = map.left(stageNumber + 1), y = mapTop + row * cellPitch;
  const g = draw('g', { class: 'cell', 'data-key': 's' + stageNumber + '.' + row, role: 'button', tabindex: '0' });
  g.append(draw('rect', { x, y, width: cellWidth, height: cellHeight, rx: 4, class: 'box' }));
  const parts = ['reply', 'record', 'request'].map((kind, i) => {
    const rect = draw('rect', { x: x + 2 + i * (cellWidth - 4) / 3, y: y + 2, width: (cellWidth - 4) / 3,
      height: cellHeight - 4, rx: 3, class: 'heat ' + kind });
    const text = draw('text', { x: x + 2 + (i + 0.5) * (cellWidth - 4) / 3, y: y + 16, 'text-anchor': 'middle',
      class: 'heat-count' });
    g.append(rect, text);
    return { rect, text };
  });
  map.part.append(g);
  return { stage: stageNumber, row, g, parts };
}

function makeEnd(key, x, y, width) {
  const g = draw('g', { class: 'end', 'data-key': key, role: 'button', tabindex: '0' });
  const rect = draw('rect', { x, y, width, height: cellHeight, rx: 11, class: 'box' });
  const text = draw('text', { x: x + width / 2, y: y + 16, 'text-anchor': 'middle', class: 'heat-count' });
  g.append(rect, text);
  map.part.append(g);
  return { g, rect, text };
}

function setCount(part, number) {
  part.text.textContent = number ? String(number) : '';
  part.rect.style.fillOpacity = number ? Math.min(1, 0.25 + 0.19 * number) : 0;
  part.text.classList.toggle('light', number > 2);
}

// what stands in a switch: replies at its inputs, records and requests of its outputs
function switchCounts(view, stageNumber, row) {
  const counts = [0, 0, 0];
  for (const wire of [2 * row, 2 * row + 1]) {
    const after = itemsAt(view, stageNumber + 1, wire);
    counts[0] += itemsAt(view, stageNumber, rotatedRight(view.k, wire)).replies.length;
    counts[1] += after.records.length;
    counts[2] += after.requests.length;
  }
  return counts;
}

function drawMap(view, outcome) {
  for (const it of map.cells) {
    const counts = switchCounts(view, it.stage, it.row);
    counts.forEach((number, i) => setCount(it.parts[i], number));
    it.g.classList.toggle('busy', Boolean(outcome) && outcome.stage === it.stage && switchOfMove(view.k,
      outcome) === it.row);
    it.g.setAttribute('aria-label', switchText(it.stage, it.row, counts));
  }
  map.ends.forEach((it, i) => {
    it.processor.text.textContent = String(i);
    it.processor.g.setAttribute('class', 'end ' + view.status[i].split(' ')[0] + (view.word[i] >= 0 ? ' waits' : ''));
    it.processor.rect.style.fill = view.status[i] === 'run' && view.word[i] < 0 ? colourOf(i) : '';
    it.processor.rect.style.stroke = colourOf(i);
    it.processor.g.setAttribute('aria-label', processorText(view, i));
    const open = openWordsOf(view, i);
    const replies = itemsAt(view, view.k, i).replies.length;
    it.module.text.textContent = open.length ? 'w' + open[0] + '=' + shortValue(view.words.get(open[0])
      || 0).slice(-7) : String(i);
    it.module.g.setAttribute('class', 'end' + (open.length ? ' used' : '') + (replies ? ' replies' : '')
      + (outcome && outcome.module === i ? ' busy' : ''));
    it.module.g.setAttribute('aria-label', 'module ' + i + open.map((word) => ', ' + wordText(word,
      view.words.get(word) || 0)).join(''));
  });
}

function switchText(stageNumber, row, counts) {
  return 'stage ' + stageNumber + ', switch of wires ' + 2 * row + ' and ' + (2 * row + 1) + ': ' + count(counts[2],
    'request') + ', '
    + count(counts[1], 'record') + ', ' + count(counts[0], 'reply', 'replies');
}

// the switch through which a step moved a message
function switchOfMove(k, outcome) {
  return outcome.kind === MOVE || outcome.kind === JOIN ? rotatedLeft(k, outcome.wire) >> 1 : outcome.wire >> 1;
}

// shows the map, or the whole drawing
function showMap(on) {
  map.on = on && Boolean(map.part);
  if (map.part) map.part.style.display = map.on ? '' : 'none';
  for (const it in stage.parts) stage.parts[it].style.display = map.on ? 'none' : '';
  stage.svg.classList.toggle('mapped', map.on);
}

// The timeline: a column for each processor, time downwards, a mark for each reference to a shared word in the serial
// order, and an arrow from what wrote a value to each reference that saw it.

const timeRow = 30;

function setUpTimeline(run, go) {
  const { facts, data } = run;
  const box = byId('timeline');
  const svg = draw('svg', { class: 'times', role: 'group', 'aria-label': 'references by processor, time downwards' });
  const space = make('div', { class: 'space' });
  space.append(svg);
  box.append(space);
  const it = { step: 0, word: -1, rows: [] };
  const columnWidth = () => Math.min(64, Math.max(data.n > 16 ? 4 : 20, (box.clientWidth - 70) / data.n));
  const everyHead = Math.max(1, data.n / 8);
  const xOf = (p) => 52 + (p + 0.5) * columnWidth();

  // the references that are shown: those so far, to the chosen word if there is one
  function chosenRows() {
    const so = facts.refersAt[it.step];
    if (it.word < 0) return { length: so, at: (i) => i };
    if (it.cachedWord !== it.word || it.cachedFor > so) { it.cached = []; it.cachedFor = 0; it.cachedWord = it.word; }
    for (; it.cachedFor < so;
      it.cachedFor++) if (facts.references[it.cachedFor].word === it.word) it.cached.push(it.cachedFor);
    return { length: it.cached.length, at: (i) => it.cached[i] };
  }

  it.draw = () => {
    if (!box.clientHeight) return;
    const rows = chosenRows();
    const height = Math.min(rows.length * timeRow + 40, 8000000);
    space.style.height = height + 'px';
    const most = Math.ceil(box.clientHeight / timeRow) + 2;
    const share = height > box.clientHeight ? box.scrollTop / (height - box.clientHeight) : 0;
    const first = rows.length * timeRow + 40 > 8000000 ? Math.floor(share * Math.max(0, rows.length - most + 2))
      : Math.max(0, Math.floor(box.scrollTop / timeRow) - 1);
    const last = Math.min(rows.length, first + most);
    const width = xOf(data.n) + 8;
    const rowOf = new Map();
    for (let i = first; i < last; i++) rowOf.set(rows.at(i), i);
    const top = rows.length * timeRow + 40 > 8000000 ? box.scrollTop - first * timeRow : 0;
    svg.replaceChildren();
    svg.setAttribute('width', width);
    svg.setAttribute('height', most * timeRow + 40);
    const from = first * timeRow + top;
    svg.style.transform = `translateY(${from}px)`;
    const yOf = (i) => 34 + (i - first + 0.5) * timeRow;
    for (let p = 0; p < data.n; p++) {
      svg.append(draw('line', { x1: xOf(p), x2: xOf(p), y1: 26, y2: most * timeRow + 40, class: 'column' }));
    }
    const marks = draw('g', {});
    for (let i = first; i < last; i++) drawReference(marks, rows.at(i), yOf(i), rowOf, yOf);
    svg.append(marks);
    const head = draw('g', { transform: `translate(0 ${box.scrollTop - from})` });
    head.append(draw('rect', { x: 0, y: 0, width, height: 26, class: 'cover' }),
      draw('text', { x: 4, y: 18, class: 'small faint' }, 'step'));
    for (let p = 0; p < data.n; p++) {
      if (p % everyHead === 0 || data.n <= 16 && columnWidth() > 21) head.append(disc(p, xOf(p), 13, 10, true));
    }
    svg.append(head);
  };

  function drawReference(marks, index, y, rowOf, yOf) {
    const reference = facts.references[index];
    const x = reference.p < 0 ? 44 : xOf(reference.p);
    const step = facts.orderStep[reference.order];
    const line = orderedBy(data.order(reference.order));
    if (reference.saw >= 0) {
      const writer = facts.references[reference.saw], inside = rowOf.has(reference.saw);
      const wx = writer.p < 0 ? 44 : xOf(writer.p), wy = inside ? yOf(rowOf.get(reference.saw)) : 26;
      const bend = wx === x ? 22 : 0;
      const path = `M${wx} ${wy}C${wx + bend} ${(wy + y) / 2} ${x + bend} ${(wy + y) / 2} ${x} ${y - 8}`;
      marks.prepend(draw('path', { d: path, class: 'saw' + (inside ? '' : ' before'), stroke: writer.p < 0 ? '#777'
        : colourOf(writer.p) }));
      marks.append(draw('path', { d: `M${x - 4} ${y - 14}L${x} ${y - 7}L${x + 4} ${y - 14}Z`, fill: writer.p < 0
        ? '#777' : colourOf(writer.p) }));
    }
    const text = 'step ' + (data.first + step) + ': processor ' + reference.p + ', ' + line.instruction + ', '
      + wordTitle(reference.word) + ' ' + valueText(line.before) + (reference.writes ? ' to ' + valueText(line.after) : '');
    const g = draw('g', { class: 'reference', role: 'button', tabindex: '0', 'aria-label': text, 'data-go': step + 1 });
    g.append(draw('title', {}, text), draw('text', { x: 4, y: y + 4, class: 'small faint' }, String(data.first + step)));
    if (reference.writes) g.append(draw('circle', { cx: x, cy: y, r: 7, fill: reference.p < 0 ? '#777'
      : colourOf(reference.p) }));
    else g.append(draw('circle', { cx: x, cy: y, r: 6, class: 'load', stroke: colourOf(reference.p) }));
    if (data.n <= 8) {
      g.append(draw('text', { x: x + 11, y: y + 4, class: 'time-value' }, (reference.writes ? '\u2192' : '')
        + shortValue(reference.writes ? line.after : line.before)));
    }
    marks.append(g);
  }

  it.show = (step) => {
    it.step = step;
    if (!box.clientHeight) return;
    const rows = chosenRows();
    space.style.height = Math.min(rows.length * timeRow + 40, 8000000) + 'px';
    box.scrollTop = 1e9;
    it.draw();
  };
  box.addEventListener('scroll', it.draw);
  const goThere = (event) => {
    const reference = event.target.closest('[data-go]');
    if (reference && (event.type === 'click' || event.key === 'Enter')) go(Number(reference.getAttribute('data-go')));
  };
  box.addEventListener('click', goThere);
  box.addEventListener('keydown', goThere);
  const select = byId('timeline-word');
  it.words = () => {
    const known = new Set(facts.references.map((reference) => reference.word));
    for (const word of [...known].sort((a, b) => a - b).slice(0, 500)) select.append(make('option', { value: word },
      wordTitle(word)));
  };
  select.addEventListener('change', () => { it.word = Number(select.value); it.show(it.step); });
  return it;
}

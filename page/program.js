// The program as far as it has been executed, with each processor's pc, and the registers of a processor.

function setUpProgram(run, choose) {
  const list = byId('program-list');
  const it = { drawn: '' };
  it.show = (view, step) => {
    const now = run.facts.afterStep[step];
    const at = new Map();
    for (let p = 0; p < view.n; p++) {
      if (!at.has(view.pc[p])) at.set(view.pc[p], []);
      at.get(view.pc[p]).push(p);
    }
    const lines = [...run.facts.listing].filter(([pc, line]) => line.from < now || at.has(pc)).map(([pc]) => pc);
    for (const pc of at.keys()) if (!run.facts.listing.has(pc)) lines.push(pc);
    lines.sort();
    list.replaceChildren();
    let last = -1;
    for (const pc of lines) {
      const value = parseInt(pc, 16), known = run.facts.listing.get(pc);
      if (last >= 0 && value !== last + 4) list.append(make('div', { class: 'gap' }, '..'));
      last = value;
      const place = placeOfAddress(value);
      if (place && place.offset === 0) list.append(make('div', { class: 'program-label' }, place.name + ':'));
      const line = make('div', { class: 'program-line' + (at.has(pc) ? ' here' : '') });
      const marks = make('span', { class: 'marks' });
      for (const p of (at.get(pc) || []).slice(0, 8)) {
        const mark = make('button', { type: 'button', class: 'mark', 'data-processor': p, 'aria-label': 'processor '
          + p + ' is here' }, String(p));
        mark.style.background = colourOf(p);
        marks.append(mark);
      }
      if ((at.get(pc) || []).length > 8) marks.append(make('span', {}, '+' + (at.get(pc).length - 8)));
      // a page that begins later does not know what was executed before
      const seen = known && (known.from < now || run.data.first > 0);
      const text = seen ? known.text : run.data.first > 0 ? 'not executed here' : 'not yet executed';
      line.append(marks, make('code', { class: 'address' }, pc), make('code', { class: seen ? '' : 'faint' },
        text));
      list.append(line);
    }
  };
  list.addEventListener('click', (event) => {
    const mark = event.target.closest('[data-processor]');
    if (mark) choose(Number(mark.getAttribute('data-processor')));
  });
  return it;
}

const registerNames = ('zero ra sp gp tp t0 t1 t2 s0 s1 a0 a1 a2 a3 a4 a5 a6 a7 '
  + 's2 s3 s4 s5 s6 s7 s8 s9 s10 s11 t3 t4 t5 t6').split(' ');

function setUpRegisters(run) {
  const select = byId('register-processor');
  for (let p = 0; p < run.data.n; p++) select.append(make('option', { value: p }, 'processor ' + p));
  const table = byId('register-table');
  const cells = [];
  for (let r = 1; r < 32; r++) {
    const cell = make('div', { class: 'register' });
    const value = make('code', { 'data-register': r });
    cell.append(make('span', { class: 'register-name' }, 'x' + r + ' ' + registerNames[r]), value);
    table.append(cell);
    cells[r] = { cell, value, last: '' };
  }
  const it = { processor: 0 };
  it.show = (view) => {
    const p = it.processor;
    select.value = String(p);
    byId('register-heading').textContent = processorText(view, p);
    for (let r = 1; r < 32; r++) {
      const value = view.registers[32 * p + r], text = valueText(value);
      cells[r].cell.classList.toggle('changed', cells[r].p === p && cells[r].number !== value);
      cells[r].cell.classList.toggle('zero', value === 0);
      cells[r].value.textContent = text;
      cells[r].p = p;
      cells[r].number = value;
    }
  };
  return it;
}

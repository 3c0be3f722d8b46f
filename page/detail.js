// What is told of the thing that is pointed at, has the focus, or was chosen by a click.

const detail = { pinned: null, key: null };

function bothBases(value) {
  return (value | 0) + ' (hex ' + hex8(value) + ')';
}

// where an item stands, in words
function whereText(it, k) {
  if (it.kind === 'reply') {
    if (it.depth === k) return 'in the slot of module ' + it.wire;
    return 'at an input of stage ' + it.depth + ', from where it goes to ' + (it.depth === 0 ? 'processor ' + it.wire
      : 'wire ' + it.wire + ' after stage ' + (it.depth - 1));
  }
  if (it.kind === 'record') return 'in the wait buffer of stage ' + (it.depth - 1) + ', output to wire ' + it.wire;
  return it.depth === 0 ? 'in the slot of processor ' + it.wire : 'in the output queue of stage ' + (it.depth - 1)
    + ' to wire ' + it.wire;
}

// the item in which processor p is: the message that stands for it; or a record, if it waits in a switch
function itemFor(items, p) {
  return items.find((it) => it.kind !== 'record' && it.group.includes(p));
}

function tellItem(it, view) {
  if (it.kind === 'record') {
    const { second, leader, f } = it.it;
    return [['What', 'wait record'], ['Text', it.text], ['Where', whereText(it, view.k)],
      ['Second', 'processor ' + second + ' waits here'], ['Leader', 'processor ' + leader + ': its reply splits here'],
      ['Function', f + ', of what ' + leader + ' finds']];
  }
  const members = count(it.group.length, 'processor') + ': ' + it.group.join(' ');
  const request = it.kind === 'request';
  const rows = [['What', request ? 'request, on its way to memory' : 'reply, on its way back'], ['Text', it.text],
    ['Where', whereText(it, view.k)], ['Leader', 'processor ' + it.leader],
    ['Stands for', it.group.length > 1 ? members + ' (in the order of service)' : members]];
  if (!request) return rows.concat([['Value', bothBases(it.it.value)], ['Word', wordTitle(view.word[it.leader])]]);
  const { word, f } = it.it;
  const now = bothBases(view.words.get(word) || 0);
  return rows.concat([['Word', wordTitle(word) + ', of module ' + word % view.n + ', now ' + now], ['Function', f]]);
}

function tellProcessor(p, view, items, run) {
  const rows = [['What', 'processor ' + p], ['Text', processorText(view, p)]];
  const instruction = run.instructionAt(view.pc[p]), printed = run.consoleNow(p);
  if (names.symbols.length) rows.push(['Program counter', view.pc[p]]);
  if (instruction && view.status[p] === 'run') rows.push(['Instruction', instruction]);
  if (view.word[p] >= 0) {
    const it = itemFor(items, p);
    rows.push(['Waits for', wordTitle(view.word[p])]);
    if (it) rows.push(['Its message', it.text + ', ' + whereText(it, view.k)]);
  }
  if (printed) rows.push(['Console', printed]);
  return rows;
}

function tellSwitch(key, view, items) {
  const [stageNumber, row] = key.slice(1).split('.').map(Number);
  const counts = switchCounts(view, stageNumber, row);
  const rows = [['What', switchText(stageNumber, row, counts)]];
  for (const it of items) {
    const mine = it.kind === 'reply' ? it.depth === stageNumber && rotatedLeft(view.k, it.wire) >> 1 === row
      : it.depth === stageNumber + 1 && it.wire >> 1 === row;
    if (mine) rows.push([it.kind, it.text]);
  }
  return rows;
}

function tellWord(word, view) {
  const waiting = [];
  view.word.forEach((it, p) => { if (it === word) waiting.push(p); });
  return [['What', wordTitle(word) + ', of module ' + word % view.n], ['Text', wordText(word, view.words.get(word)
    || 0)],
    ['Value', bothBases(view.words.get(word) || 0)], ['Waiting', waiting.length ? 'processors ' + waiting.join(' ')
      : 'nobody']];
}

function tell(key, view, items, run) {
  const number = Number(key.slice(1));
  if (key[0] === 'm' || key[0] === 'r') {
    const it = items.find((x) => x.key === key);
    return it ? tellItem(it, view) : null;
  }
  if (key[0] === 'p') return tellProcessor(number, view, items, run);
  if (key[0] === 'w') return tellWord(number, view);
  if (key[0] === 's') return tellSwitch(key, view, items);
  if (key[0] !== 'd') return null;
  const shown = wordsShown(view, number, wordsByModule(view));
  const words = shown.open.concat(shown.others.slice(0, 12));
  return [['What', 'module ' + number], ...words.map((word) => ['Word', wordText(word, view.words.get(word) || 0)])];
}

// marks what belongs to the chosen thing: the message of a processor, its records, its group
function markRelated(key, items) {
  const marked = document.querySelectorAll('.scene .related, .scene .chosen');
  for (const it of marked) it.classList.remove('related', 'chosen');
  stage.svg.classList.toggle('choosing', /^[mrp]/.test(key || ''));
  if (!key) return;
  const related = new Set([key]);
  const number = Number(key.slice(1));
  const message = /^[pr]/.test(key) ? itemFor(items, number) : items.find((it) => key[0] === 'm' && it.key === key);
  if (message) {
    related.add(message.key);
    for (const p of message.group) { related.add('p' + p); if (p !== message.leader) related.add('r' + p); }
    if (message.kind === 'request') related.add('w' + message.it.word);
  }
  for (const it of related) {
    const element = stage.keyed.get(it);
    if (element) element.classList.add(it === key ? 'chosen' : 'related');
  }
}

function showDetail(key, view, items, run) {
  const list = byId('detail-list');
  const rows = key ? tell(key, view, items, run) : null;
  detail.key = rows ? key : null;
  markRelated(detail.key, items);
  list.replaceChildren();
  byId('detail').classList.toggle('empty', !rows);
  byId('detail').classList.toggle('pinned', Boolean(rows) && detail.pinned === key);
  if (!rows) {
    list.append(make('p', { class: 'faint' },
      'Point at anything in the drawing, or go there by Tab; a click keeps it here.'));
    return;
  }
  for (const [name, text] of rows) {
    const row = make('div', { class: 'detail-row' });
    row.append(make('dt', {}, name), make('dd', {}, text));
    list.append(row);
  }
}

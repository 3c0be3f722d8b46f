// A list of all that stands in the network, as the list of a picture of a large machine has it.

function standingLines(view, items) {
  const lines = [];
  const add = (place, it) => lines.push({ text: place + it.text, key: it.key, kind: it.kind, leader: it.leader });
  const at = (kind, depth, wire) => items.filter((it) => it.kind === kind && it.depth === depth && it.wire === wire);
  for (let p = 0; p < view.n; p++) at('request', 0, p).forEach((it) => add('processor ' + p + ': ', it));
  for (let stageNumber = 0; stageNumber < view.k; stageNumber++) {
    for (let wire = 0; wire < view.n; wire++) {
      const place = 'stage ' + stageNumber + ' wire ' + wire + ': ';
      at('reply', stageNumber, rotatedRight(view.k, wire)).forEach((it) => add(place, it));
      at('record', stageNumber + 1, wire).forEach((it) => add(place, it));
      at('request', stageNumber + 1, wire).forEach((it) => add(place, it));
    }
  }
  for (let module = 0; module < view.n; module++) {
    const place = 'module ' + module + ': ';
    for (const word of openWordsOf(view, module)) lines.push({ text: place + wordText(word, view.words.get(word)
      || 0), key: 'w' + word, kind: 'word', leader: -1 });
    at('reply', view.k, module).forEach((it) => add(place, it));
  }
  return lines;
}

function setUpStanding(point) {
  const box = byId('standing');
  box.addEventListener('click', (event) => {
    const line = event.target.closest('[data-points]');
    if (line) point(line.getAttribute('data-points'));
  });
  return { show: (view, items) => {
    const lines = standingLines(view, items);
    box.replaceChildren();
    for (const it of lines) {
      const line = make('button', { type: 'button', class: 'standing-line ' + it.kind, 'data-points': it.key },
        it.text);
      if (it.leader >= 0) line.style.setProperty('--own', colourOf(it.leader));
      box.append(line);
    }
    if (!lines.length) box.append(make('p', { class: 'faint' }, 'Nothing is in the network.'));
  } };
}

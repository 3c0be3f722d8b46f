// Long lists: the serial order, line by line, of which only the part that is seen is in the document.

const lineHeight = 24;

// A list of `length()` lines in a box that scrolls; `lineAt(i)` makes the element of a line.
function makeLongList(box, lineAt) {
  const space = make('div', { class: 'space' });
  const shown = make('div', { class: 'shown' });
  space.append(shown);
  box.append(space);
  const it = { length: 0, most: 250000, box };
  // No browser scrolls boxes that are millions of pixels high, so positions are scaled there.
  const heightOf = () => Math.min(it.length * lineHeight, 8000000);
  const scaleOf = () => it.length * lineHeight > 8000000
    ? (it.length * lineHeight - box.clientHeight) / (8000000 - box.clientHeight) : 1;
  it.draw = () => {
    const top = box.scrollTop * scaleOf();
    const first = Math.max(0, Math.floor(top / lineHeight) - 4);
    const last = Math.min(it.length, first + Math.ceil((box.clientHeight || 400) / lineHeight) + 9);
    space.style.height = heightOf() + 'px';
    shown.style.transform = `translateY(${first * lineHeight - top + box.scrollTop}px)`;
    shown.replaceChildren();
    for (let i = first; i < last; i++) shown.append(lineAt(i));
  };
  it.showLine = (i) => {
    space.style.height = heightOf() + 'px';
    const at = i * lineHeight / scaleOf();
    if (at < box.scrollTop || at > box.scrollTop
      + box.clientHeight - 2 * lineHeight) box.scrollTop = at - box.clientHeight * 0.6;
    it.draw();
  };
  box.addEventListener('scroll', it.draw);
  return it;
}

// ---- the serial order

function setUpOrder(run, go, choose) {
  const facts = run.facts;
  const list = makeLongList(byId('order-list'), (i) => {
    const it = orderedBy(run.data.order(i));
    const line = make('button', { class: 'order-line', type: 'button', 'data-order': i,
      title: orderText(run.data.order(i)) + ', in step ' + (run.data.first + facts.orderStep[i]) });
    if (i >= order.now) line.classList.add('later');
    if (facts.orderStep[i] === order.step - 1) line.classList.add('new');
    if (it.p >= 0) line.style.setProperty('--own', colourOf(it.p));
    line.setAttribute('data-text', run.data.order(i));
    line.append(make('span', { class: 'own', 'data-processor': it.p }, it.p < 0 ? '-' : String(it.p)),
      make('span', { class: 'faint' }, String(it.number)));
    const more = (it.result ? ' = ' + withValues(it.result) : '') + (it.console ? ' prints ' + it.console : '');
    line.append(make('span', { class: 'text' }, it.instruction + more));
    if (it.word >= 0) line.append(make('span', { class: 'refers' }, shortWord(it.word) + ': ' + shortValue(it.before)
      + (it.before === it.after ? '' : ' \u2192 ' + shortValue(it.after))));
    return line;
  });
  const order = { now: 0, step: 0, list };
  byId('order-list').addEventListener('click', (event) => {
    const line = event.target.closest('[data-order]');
    const own = event.target.closest('[data-processor]');
    if (own && own.getAttribute('data-processor') !== '-1') choose(Number(own.getAttribute('data-processor')));
    if (line) go(facts.orderStep[Number(line.getAttribute('data-order'))] + 1);
  });
  order.show = (step) => {
    order.step = step;
    order.now = facts.afterStep[step];
    list.length = order.now;
    if (byId('order-list').clientHeight) list.showLine(Math.max(0, order.now - 1));
    byId('order-count').textContent = count(order.now, 'line') + ' of ' + run.data.orders;
  };
  return order;
}

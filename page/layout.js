// Where things stand in the drawing: column 0 has the processors, the next ones the stages, the last the modules. Each
// column has a row for each wire, and two rows make a switch. Below, a lane of a row leads right (requests), another
// left.

const rowHeight = 92, emptyHeight = 26;
const processorWidth = 222, switchWidth = 214, moduleWidth = 214, narrowWidth = 96;

// Whether anything stands in a row of a column.
function standsIn(view, column, row) {
  const k = view.k;
  if (column === 0) return itemsAt(view, 0, row).requests.length > 0;
  const after = column <= k ? view.places[column * view.n + row] : '';
  const before = column <= k ? itemsAt(view, column - 1, rotatedRight(k, row)) : itemsAt(view, k, row);
  if (column > k) return before.replies.length > 0 || openWordsOf(view, row).length > 0;
  const items = after ? itemsIn(after) : null;
  return before.replies.length > 0 || Boolean(items && items.requests.length + items.records.length);
}

// the words of a module to which processors have open references, in the order of the processors
function openWordsOf(view, module) {
  const words = [];
  for (const word of view.word) {
    if (word >= 0 && word % view.n === module && !words.includes(word)) words.push(word);
  }
  return words;
}

// The layout of a whole machine; with a view, rows in which nothing stands are low, and stages without any are narrow.
function makeLayout(k, view) {
  const n = 1 << k, gap = 36 + 8 * k;
  const it = { k, n, x: [], w: [], y: [], h: [], top: 40 };
  let x = 20;
  for (let column = 0; column <= k + 1; column++) {
    const high = [];
    for (let row = 0; row < n; row++) high.push(!view || standsIn(view, column, row));
    const narrow = view && column > 0 && column <= k && !high.includes(true);
    it.x.push(x);
    it.w.push(narrow ? narrowWidth : column === 0 ? processorWidth : column <= k ? switchWidth : moduleWidth);
    x += it.w[column] + gap;
    const h = high.map((is) => is ? rowHeight : emptyHeight);
    let y = it.top;
    it.h.push(h);
    it.y.push(h.map((height) => (y += height) - height));
  }
  it.width = x - gap + 20;
  it.height = Math.max(...it.y.map((ys, column) => ys[n - 1] + it.h[column][n - 1])) + 16;
  return it;
}

function middleOf(layout, column, row) {
  return layout.y[column][row] + layout.h[column][row] / 2;
}

// the row from which a wire comes into a row of a column
function rowBefore(layout, column, row) {
  return column <= layout.k ? rotatedRight(layout.k, row) : row;
}

// ---- the places of messages and records: the middles of their shapes, which are so wide

function inQueue(widths, first, room, direction) {
  const total = widths.reduce((sum, w) => sum + w + 4, 0);
  const squeeze = total > room ? Math.max(0.2, (room - widths[widths.length - 1]) / Math.max(1,
    total - widths[widths.length - 1])) : 1;
  let at = first;
  return widths.map((w) => {
    const middle = at + direction * w / 2;
    at += direction * (w + 4) * squeeze;
    return middle;
  });
}

function requestSpots(layout, depth, wire, widths) {
  const right = layout.x[depth] + layout.w[depth] - 6;
  const room = depth === 0 ? 100 : layout.w[depth] - 12;
  const y = layout.y[depth][wire] + layout.h[depth][wire] * (depth === 0 ? 0.5 : 0.68);
  return inQueue(widths, right, room, -1).map((x) => ({ x, y }));
}

function replySpots(layout, depth, wire, widths) {
  const column = depth + 1;
  const row = depth < layout.k ? rotatedLeft(layout.k, wire) : wire;
  const room = layout.w[column] - 12;
  const y = layout.y[column][row] + layout.h[column][row] * (depth < layout.k ? 0.25 : 0.5);
  return inQueue(widths, layout.x[column] + 6, room, 1).map((x) => ({ x, y }));
}

function recordSpot(layout, depth, wire, number, width) {
  const column = number >> 1, h = layout.h[depth][wire];
  return {
    x: layout.x[depth] + layout.w[depth] - 6 - width / 2 - Math.min(column, 1.4) * (width + 3),
    y: layout.y[depth][wire] + (number & 1 ? 0.41 : 0.17) * h,
  };
}

// The data of the page: its sizes, and where its lines are. A line is cut out only when it is asked for, so that a long
// run opens at once.

// What the program wrote for `%` and `<`, so that no data can end the element that holds it.
function unescaped(text) {
  return text.indexOf('%') < 0 ? text : text.replace(/%3c/g, '<').replace(/%25/g, '%');
}

// Where the lines of a text begin; the last number is where the line after the last would begin.
function startsOfLines(text) {
  const starts = [0];
  for (let at = text.indexOf('\n'); at >= 0; at = text.indexOf('\n', at + 1)) starts.push(at + 1);
  return Uint32Array.from(starts);
}

function numberAfter(line, name) {
  const found = new RegExp('(?:^| )' + name + ' (\\d+)').exec(line);
  if (!found) throw new Error('the data has no ' + name + ' in: ' + line);
  return Number(found[1]);
}

// A line `ADDRESS SIZE NAME`.
function symbolOf(line) {
  return { address: parseInt(line.slice(0, 8), 16), size: parseInt(line.slice(9, 17), 16), name: line.slice(18) };
}

// The data by its parts. Story line i and change line i are those of step i of the page, which is step `first` + i of the
// run. The run has `all` steps.
function readData(element) {
  const raw = element.textContent;
  const text = raw.charCodeAt(0) === 10 ? raw.slice(1) : raw;
  const starts = startsOfLines(text);
  const lines = starts.length - 1;
  const line = (i) => unescaped(text.slice(starts[i], starts[i + 1] - 1));
  if (lines < 4 || line(0) !== 'ultra page 1') throw new Error('this page holds no run that it can read');
  const machine = line(1);
  const k = numberAfter(machine, 'k');
  const steps = numberAfter(line(2), 'steps'), named = numberAfter(line(2), 'symbols'), begin = 3 + named;
  return {
    machine, k, n: 1 << k, steps, first: numberAfter(line(2), 'from'), all: numberAfter(line(2), 'of'),
    c: numberAfter(machine, 'c'), b: numberAfter(machine, 'b'), r: numberAfter(machine, 'r'),
    words: numberAfter(line(2), 'words'),
    symbols: Array.from({ length: named }, (_, i) => symbolOf(line(3 + i))),
    opening: line(begin),
    change: (i) => line(begin + 1 + i),
    story: (i) => line(begin + 1 + steps + i),
    order: (i) => line(begin + 1 + 2 * steps + i),
    orders: Math.max(0, lines - begin - 1 - 2 * steps),
  };
}

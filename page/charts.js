// Charts over the run: a click on one goes to that step.

const chartWidth = 400, chartHeight = 62;

// the greatest of the numbers of the steps of each of so many parts of a run
function partsOf(numberAt, from, to, parts) {
  const values = [];
  for (let i = 0; i < parts; i++) {
    const first = from + Math.floor((to - from) * i / parts), end = Math.max(first + 1, from
      + Math.floor((to - from) * (i + 1) / parts));
    let most = 0;
    for (let it = first; it < Math.min(end, to); it++) most = Math.max(most, numberAt(it));
    values.push(most);
  }
  return values;
}

// how many of the steps of each part are of a kind
function countsOf(isAt, to, parts) {
  const values = new Array(parts).fill(0);
  for (let it = 0; it < to; it++) if (isAt(it)) values[Math.min(parts - 1, Math.floor(it * parts / to))]++;
  return values;
}

function areaPath(values, width, height, most) {
  const dx = width / values.length;
  let path = `M0 ${height}`;
  values.forEach((value, i) => {
    const y = (height - value * (height - 4) / most).toFixed(1);
    path += `L${(i * dx).toFixed(1)} ${y}L${((i + 1) * dx).toFixed(1)} ${y}`;
  });
  return path + `L${width} ${height}Z`;
}

function makeChart(name, unit, values, kind, run, go, numberAt) {
  const most = Math.max(1, ...values);
  const figure = make('figure', { class: 'chart ' + kind });
  const caption = make('figcaption');
  const now = make('strong', {}, '');
  caption.append(make('span', {}, name), make('span', { class: 'faint' }, 'most ' + most + (unit ? ' ' + unit : '')),
    now);
  const svg = draw('svg', { viewBox: `0 0 ${chartWidth} ${chartHeight}`, preserveAspectRatio: 'none', role: 'img',
    'aria-label': name + ' over the run, at most ' + most });
  svg.append(draw('path', { d: areaPath(values, chartWidth, chartHeight, most), class: 'area' }));
  const cursor = draw('line', { y1: 0, y2: chartHeight, class: 'cursor' });
  svg.append(cursor);
  svg.addEventListener('click', (event) => {
    const box = svg.getBoundingClientRect();
    go(Math.round((event.clientX - box.left) / box.width * run.data.steps));
  });
  figure.append(caption, svg);
  return { figure, show: (step) => {
    const x = run.data.steps ? step / run.data.steps * chartWidth : 0;
    cursor.setAttribute('x1', x);
    cursor.setAttribute('x2', x);
    now.textContent = numberAt ? 'now ' + numberAt(step) : '';
  } };
}

function setUpCharts(run, go) {
  const { facts, data } = run;
  const it = { charts: [], strip: null };
  it.build = () => {
    const parts = Math.max(1, Math.min(200, data.steps)), end = data.steps + 1;
    const rises = (kinds) => countsOf((i) => kinds.includes(facts.kind[i]), data.steps, parts);
    const perPart = data.steps > parts ? 'in ' + Math.ceil(data.steps / parts) + ' steps' : '';
    // how many steps of a kind there are among the first so many
    const upTo = (kind) => {
      let known = 0, at = 0;
      return (step) => {
        if (step < at) at = known = 0;
        while (at < step) if (facts.kind[at++] === kind) known++;
        return known;
      };
    };
    const moving = partsOf((i) => facts.moving[i], 0, end, parts);
    const charts = [
      makeChart('messages on their way', '', moving, 'moving', run, go, (step) => facts.moving[step]),
      makeChart('combinations', perPart, rises([JOIN]), 'joins', run, go, upTo(JOIN)),
      makeChart('services', perPart, rises([SERVE]), 'serves', run, go, upTo(SERVE)),
    ];
    facts.queues.forEach((queue, it) => {
      const most = partsOf((i) => queue[i], 0, end, parts);
      charts.push(makeChart('longest queue of stage ' + it, '', most, 'queue', run, go, (step) => queue[step]));
    });
    it.charts = charts;
    byId('charts').replaceChildren(...it.charts.map((chart) => chart.figure));
    buildStrip();
  };

  // the strip over the slider: messages on their way, and a mark where requests were combined
  function buildStrip() {
    const parts = Math.max(1, Math.min(400, data.steps));
    const values = partsOf((i) => facts.moving[i], 1, data.steps + 1, parts), most = Math.max(1, ...values);
    const svg = byId('strip');
    svg.setAttribute('viewBox', `0 0 ${parts} 30`);
    svg.replaceChildren(draw('path', { d: areaPath(values, parts, 30, most), class: 'area' }));
    const joins = countsOf((i) => facts.kind[i] === JOIN, data.steps, parts);
    let path = '';
    joins.forEach((value, i) => { if (value) path += `M${i} 0h1v5h-1z`; });
    svg.append(draw('path', { d: path || 'M0 0', class: 'ticks' }));
  }

  it.show = (step) => { for (const chart of it.charts) chart.show(step); };
  return it;
}

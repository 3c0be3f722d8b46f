// Joins the parts: a step that is gone to is shown by each of them.

function start() {
  const data = readData(byId('data'));
  names.symbols = data.symbols;
  const run = makeHistory(data);
  const still = matchMedia('(prefers-reduced-motion: reduce)');
  let step = 0, view = run.seek(0), items = [], playing = 0, playedAt = 0;
  const writeAddress = makeAddressWriter();

  const isPart = data.steps < data.all;
  byId('machine').textContent = data.machine + ', ' + count(data.n, 'processor') + ', ' + (isPart
    ? count(data.steps, 'step') + ' from ' + data.first + ' on of ' + data.all : count(data.steps, 'step'));
  document.title = 'Ultracomputer: ' + data.machine;
  for (let p = 0; p < data.n; p++) byId('event-processor').append(make('option', { value: p }, 'processor ' + p));
  setUpStage(byId('drawing'));
  if (data.k >= 4) setUpMap(data.k);
  document.body.classList.toggle('large', data.k >= 4);

  const instructionAt = (pc) => { const it = run.facts.listing.get(pc); return it ? it.text : ''; };
  const player = {
    steps: data.steps, first: data.first, all: data.all, speed: 1, step: () => step, playing: () => playing !== 0,
    go: (to, moved) => show(Math.max(0, Math.min(data.steps, to)), moved),
    find: (forwards, kinds, p, w) => run.find(step, forwards, kinds, p, w),
    pause: () => {
      if (!playing) return;
      cancelAnimationFrame(playing);
      stopped();
    },
    play: () => {
      if (step === data.steps) show(0);
      playedAt = performance.now() - 1e6;
      playing = requestAnimationFrame(tick);
      controls.playing(true);
    },
  };

  function stopped() {
    playing = 0;
    controls.playing(false);
    sayCaption();
  }

  function tick(now) {
    const due = 1000 / player.speed;
    if (now - playedAt >= due) {
      // at high speeds several steps are taken for one drawing
      const many = playedAt < now - 5e5 ? 1 : Math.max(1, Math.min(500, Math.floor((now - playedAt) / due)));
      playedAt = many > 1 || now - playedAt > 2 * due ? now : playedAt + due;
      show(Math.min(data.steps, step + many), many === 1);
    }
    if (step === data.steps) stopped(); else playing = requestAnimationFrame(tick);
  }

  // ---- panels

  const choose = (p) => {
    registers.processor = p;
    detail.pinned = 'p' + p;
    registers.show(view);
    tabs('program');
    point();
  };
  const goThere = (to) => { player.pause(); player.go(to); };
  const order = setUpOrder(run, goThere, choose);
  const program = setUpProgram(run, choose);
  const registers = setUpRegisters(run);
  const charts = setUpCharts(run, goThere);
  const timeline = setUpTimeline(run, goThere);
  const standing = setUpStanding((key) => { detail.pinned = key; point(); lookAtKey(key); });
  const tabs = setUpTabs(() => showPanels());
  byId('register-processor').addEventListener('change', (event) => choose(Number(event.target.value)));

  const visible = (id) => !byId(id).hidden && byId('side').offsetParent !== null;

  function showPanels() {
    order.show(step);
    if (visible('panel-program')) { program.show(view, step); registers.show(view); }
    if (visible('panel-standing')) standing.show(view, items);
    if (visible('panel-charts')) charts.show(step);
    if (visible('panel-timeline')) timeline.show(step);
  }

  // ---- a step

  function sayCaption() {
    const last = step > 0 ? storyText(data.story(step - 1)) : data.first === 0 ? 'Nothing has happened yet.'
      : 'The page begins after ' + count(data.first, 'step') + '.';
    const next = step < data.steps ? storyText(data.story(step)) : data.first + step === data.all ? 'The run is over.'
      : 'The page ends here.';
    byId('caption').textContent = last;
    byId('caption').classList.toggle('long', last.length > 76);
    byId('next-line').textContent = next;
    // said only when the play stands, or slowly goes on: a reader cannot follow more
    if (!playing || player.speed <= 1) byId('said').textContent = 'After ' + (data.first + step) + ': ' + last;
  }

  function show(to, moved) {
    const outcome = to > 0 ? outcomeOf(data.story(to - 1)) : null;
    const time = Math.min(1100, 900 / player.speed);
    const moving = moved && to === step + 1 && !still.matches && !document.hidden && time > 40 && !map.on;
    step = to;
    view = run.seek(to);
    stopMotion();
    drawAll(outcome, moving, playing ? time : Math.min(time, 800));
    showPanels();
    controls.show(step);
    sayCaption();
    byId('drawing').setAttribute('aria-label', 'the machine after ' + count(data.first + step, 'step'));
    writeAddress(data.first + step);
  }

  function drawAll(outcome, moving, time) {
    if (map.on) {
      items = itemsOf(view, null);
      drawMap(view, outcome);
    } else {
      const before = drawView(view, instructionAt);
      items = [...stage.items.values()];
      for (const it of document.querySelectorAll('.scene .last')) it.classList.remove('last');
      markLast(outcome);
      if (moving) showMotion(outcome, before, time);
      follow(outcome);
    }
    if (camera.fitted) fitCamera();
    point();
  }

  // what a step was about: a processor, a module or a switch
  function keyOfStep(outcome) {
    if (outcome.p !== undefined) return 'p' + outcome.p;
    return outcome.kind === SERVE ? 'd' + outcome.module : 's' + outcome.stage + '.' + switchOfMove(data.k, outcome);
  }

  function markLast(outcome) {
    if (!outcome) return;
    const element = stage.keyed.get(keyOfStep(outcome));
    if (element) element.classList.add('last');
  }

  const facts = { instructionAt, consoleNow: (p) => run.consoleOf(p, step) };
  const point = (key) => showDetail(key || detail.pinned || null, view, items, facts);

  // a machine that is too large to be seen at once is shown where the last step was
  function lookAtLast() {
    if (data.k < 4) { fitCamera(); return; }
    const at = placeOfKey(step > 0 ? keyOfStep(outcomeOf(data.story(step - 1))) : 'p0');
    lookAt(at.x, at.y, 0.8);
  }

  // brings the last step back into sight if it went out of it
  function follow(outcome) {
    if (!outcome || camera.fitted || data.k < 4 || map.on || outcome.p === -1) return;
    const at = placeOfKey(keyOfStep(outcome)), scene = sceneSize();
    const x = at.x * camera.scale + camera.x, y = at.y * camera.scale + camera.y;
    if (x < 60 || y < 40 || x > scene.width - 60 || y > scene.height - 40) lookAt(at.x, at.y, camera.scale);
  }

  function lookAtKey(key) {
    const it = stage.items.get(key);
    if (!it || map.on || camera.fitted) return;
    lookAt(it.spot.x, it.spot.y, camera.scale);
  }

  function redraw() {
    stopMotion();
    stage.items.forEach((it) => it.element.remove());
    stage.items = new Map();
    drawAll(step > 0 ? outcomeOf(data.story(step - 1)) : null);
    showPanels();
    sayCaption();
  }

  // ---- actions of buttons and keys

  const pressed = (id, on) => byId(id).setAttribute('aria-pressed', String(on));
  const actions = {
    base: () => { decimal = !decimal; byId('button-base').textContent = decimal ? 'decimal' : 'hex'; redraw(); },
    theme: () => {
      const dark = document.documentElement.dataset.theme ? document.documentElement.dataset.theme === 'dark'
        : matchMedia('(prefers-color-scheme: dark)').matches;
      document.documentElement.dataset.theme = dark ? 'light' : 'dark';
    },
    panels: () => { pressed('button-panels', !document.body.classList.toggle('alone')); showPanels(); },
    map: () => {
      showMap(!map.on);
      pressed('button-map', map.on);
      redraw();
      if (map.on) fitCamera(); else lookAtLast();
    },
    compact: () => {
      stage.compact = !stage.compact;
      pressed('button-compact', stage.compact);
      if (map.on) actions.map();
      redraw();
      fitCamera();
      if (camera.scale < 0.4) lookAtLast();
    },
    fit: fitCamera,
    closer: () => zoomCamera(1.25),
    farther: () => zoomCamera(0.8),
    unpin: () => { detail.pinned = null; point(); },
    print: () => window.print(),
  };
  const controls = setUpControls(player, actions);
  byId('button-map').hidden = data.k < 4;

  // ---- pointing

  const svg = stage.svg;
  const keyOf = (event) => { const it = event.target.closest('[data-key]'); return it && it.getAttribute('data-key'); };
  svg.addEventListener('pointerover', (event) => { if (!detail.pinned) point(keyOf(event)); });
  svg.addEventListener('pointerleave', () => point());
  svg.addEventListener('focusin', (event) => point(keyOf(event)));
  const open = (key) => {
    if (map.on && key && /^[spd]/.test(key)) {
      actions.map();
      const at = placeOfKey(key);
      lookAt(at.x, at.y, 0.9);
    }
    detail.pinned = key && detail.pinned !== key ? key : null;
    if (key && key[0] === 'p') registers.processor = Number(key.slice(1));
    if (visible('panel-program')) registers.show(view);
    point();
  };
  svg.addEventListener('click', (event) => { if (!svg.dragged) open(keyOf(event)); });
  svg.addEventListener('keydown', (event) => { if (event.key === 'Enter') open(keyOf(event)); });

  function placeOfKey(key) {
    const layout = stage.layout, [a, b] = key.slice(1).split('.').map(Number);
    if (key[0] === 's') return { x: layout.x[a + 1] + layout.w[a + 1] / 2, y: layout.y[a + 1][2 * b + 1] };
    const column = key[0] === 'p' ? 0 : data.k + 1;
    return { x: layout.x[column] + layout.w[column] / 2, y: middleOf(layout, column, a) };
  }

  setUpCamera();
  showMap(data.k >= 4);
  pressed('button-map', map.on);
  // The event's address counts: that of the page may be the step before again, which is written a little late.
  addEventListener('hashchange', (event) => {
    const to = stepInAddress(event.newURL, data);
    if (to >= 0 && to !== step) goThere(to);
  });
  // on paper stands the whole drawing, whatever part is seen
  addEventListener('beforeprint', () => {
    const size = drawnSize();
    stopMotion();
    svg.setAttribute('viewBox', `0 0 ${size.width} ${size.height}`);
    stage.camera.removeAttribute('transform');
  });
  addEventListener('afterprint', () => {
    svg.removeAttribute('viewBox');
    placeCamera();
  });

  show(Math.max(0, stepInAddress(location.href, data)));
  fitCamera();
  run.learnAll((done) => {
    if (!done) return;
    charts.build();
    timeline.words();
    charts.show(step);
    if (!map.on) redraw(); else showPanels();
    document.body.dataset.ready = 'yes';
  });
}

try {
  start();
} catch (fault) {
  byId('caption').textContent = 'This page cannot be shown: ' + fault.message;
  throw fault;
}

// The controls: buttons, slider, speed, keys, jumps to events, and the address.

const speeds = [0.5, 1, 2, 4, 8, 16, 60, 250, 1000];

function speedText(speed) {
  return speed < 1 ? '1 step in 2 s' : count(speed, 'step') + ' a second';
}

// `player` has go(step, moved), step(), steps, playing(), play(), pause(), speed, find(..)
function setUpControls(player, actions) {
  const slider = byId('slider');
  slider.max = String(player.steps);
  slider.addEventListener('input', () => { player.pause(); player.go(Number(slider.value)); });
  const speed = byId('speed');
  speed.max = String(speeds.length - 1);
  const setSpeed = (i) => {
    const index = Math.min(speeds.length - 1, Math.max(0, i));
    player.speed = speeds[index];
    speed.value = String(index);
    speed.setAttribute('aria-valuetext', speedText(player.speed));
    byId('speed-text').textContent = speedText(player.speed);
  };
  speed.addEventListener('input', () => setSpeed(Number(speed.value)));
  setSpeed(1);

  // the number of steps of the run, of which some may come before the page's first
  const number = byId('step-number');
  number.min = String(player.first);
  number.max = String(player.first + player.steps);
  number.addEventListener('change', () => { player.pause(); player.go(Math.max(0, Math.min(player.steps,
    Math.round(Number(number.value) || 0) - player.first))); });

  const jump = (kind, forwards) => {
    player.pause();
    const p = Number(byId('event-processor').value), w = byId('event-word').value;
    const found = player.find(forwards, kindNames[kind], p, w === '' ? -1 : Number(w));
    byId('event-none').textContent = found < 0 ? 'none ' + (forwards ? 'later' : 'earlier') : '';
    if (found >= 0) player.go(found + 1);
  };
  const chosenJump = (forwards) => jump(byId('event-kind').value, forwards);
  const kind = (name) => (event) => { byId('event-kind').value = name; jump(name, !event.shiftKey); };

  const all = {
    play: () => (player.playing() ? player.pause() : player.play()),
    forth: () => { player.pause(); player.go(player.step() + 1, true); },
    back: () => { player.pause(); player.go(player.step() - 1); },
    first: () => { player.pause(); player.go(0); },
    last: () => { player.pause(); player.go(player.steps); },
    'next-event': () => chosenJump(true),
    'last-event': () => chosenJump(false),
    help: () => { byId('help').open ? byId('help').close() : byId('help').showModal(); },
  };
  Object.assign(all, actions);
  for (const button of document.querySelectorAll('[data-does]')) {
    button.addEventListener('click', (event) => { all[button.getAttribute('data-does')](); letGo(event); });
  }

  const keys = {
    ' ': all.play, ArrowRight: all.forth, ArrowLeft: all.back, Home: all.first, End: all.last,
    PageDown: () => { player.pause(); player.go(player.step() + 10); }, PageUp: () => { player.pause();
      player.go(player.step() - 10); },
    ArrowUp: () => setSpeed(Number(speed.value) + 1), ArrowDown: () => setSpeed(Number(speed.value) - 1),
    n: all['next-event'], b: all['last-event'], c: kind('join'), s: kind('serve'), r: kind('retire'), h: kind('stop'),
    d: all.base, l: all.theme, p: all.panels, m: all.map, k: all.compact, f: all.fit, '0': all.fit, '+': all.closer,
      '=': all.closer, '-': all.farther,
    g: () => { number.focus(); number.select(); }, '?': all.help, Escape: all.unpin,
  };
  document.addEventListener('keydown', (event) => {
    if (event.ctrlKey || event.metaKey || event.altKey || byId('help').open && event.key !== '?') return;
    const name = event.target.nodeName;
    const type = event.target.type;
    // a text that is being edited keeps its keys; a slider, a list and a button keep those that they know
    if (name === 'INPUT' && type !== 'range' || name === 'SELECT' && event.key !== 'Escape') return;
    if (name === 'INPUT' && event.target.id === 'speed' && /^Arrow|^Home|^End|^Page/.test(event.key)) return;
    if (event.key === ' ' && (name === 'BUTTON' || event.target.getAttribute('role') === 'button')) return;
    if (event.target.getAttribute && event.target.getAttribute('role') === 'tab'
      && /^Arrow|^Home|^End/.test(event.key)) return;
    const does = keys[event.key.length === 1 ? event.key.toLowerCase() : event.key];
    if (!does) return;
    event.preventDefault();
    does(event);
  });

  // ---- what a step changes in the controls

  return { show: (step) => {
    slider.value = String(step);
    slider.setAttribute('aria-valuetext', 'after ' + (player.first + step) + ' of ' + count(player.all, 'step'));
    if (document.activeElement !== number) number.value = String(player.first + step);
    byId('button-back').disabled = byId('button-first').disabled = step === 0;
    byId('button-forth').disabled = byId('button-last').disabled = step === player.steps;
  }, playing: (on) => {
    byId('button-play').setAttribute('aria-pressed', String(on));
    byId('button-play').classList.toggle('on', on);
    byId('button-play').setAttribute('aria-label', on ? 'pause' : 'play');
  } };
}

// After a click by a mouse (but not by a key) the focus goes, so that the keys step again.
function letGo(event) {
  if (event.detail > 0) event.currentTarget.blur();
}

// ---- the address

// the step of the page that an address names by its number in the run, or -1
function stepInAddress(address, data) {
  const found = /#step=(\d+)$/.exec(address);
  return found ? Math.max(0, Math.min(data.steps, Number(found[1]) - data.first)) : -1;
}

// Writes the step into the address without a new entry in the browser's history. Browsers refuse too many of these.
function makeAddressWriter() {
  let wanted = -1, timer = 0;
  return (step) => {
    wanted = step;
    if (timer) return;
    timer = setTimeout(() => {
      timer = 0;
      history.replaceState(null, '', '#step=' + wanted);
    }, 150);
  };
}

// ---- tabs

function setUpTabs(shown) {
  const tabs = [...document.querySelectorAll('[role=tab]')];
  const choose = (tab, focus) => {
    for (const it of tabs) {
      const on = it === tab;
      it.setAttribute('aria-selected', String(on));
      it.tabIndex = on ? 0 : -1;
      byId(it.getAttribute('aria-controls')).hidden = !on;
    }
    if (focus) tab.focus();
    shown();
  };
  tabs.forEach((tab, i) => {
    tab.addEventListener('click', (event) => { choose(tab); letGo(event); });
    tab.addEventListener('keydown', (event) => {
      const to = { ArrowRight: i + 1, ArrowLeft: i - 1 + tabs.length, Home: 0, End: tabs.length - 1 }[event.key];
      if (to === undefined) return;
      event.preventDefault();
      choose(tabs[to % tabs.length], true);
    });
  });
  return (name) => choose(byId('tab-' + name));
}

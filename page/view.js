// A view: what the machine looks like after some steps. Lines of changes are put on it; nothing else is known here.

function emptyView(data) {
  return {
    n: data.n, k: data.k,
    pc: new Array(data.n).fill('00000000'),
    status: new Array(data.n).fill('run'),
    word: new Int32Array(data.n).fill(-1),
    registers: new Uint32Array(32 * data.n),
    words: new Map(),
    places: new Array((data.k + 1) * data.n).fill(''),
  };
}

function copyOfView(view) {
  return {
    n: view.n, k: view.k,
    pc: view.pc.slice(), status: view.status.slice(), word: view.word.slice(), registers: view.registers.slice(),
    words: new Map(view.words), places: view.places.slice(),
  };
}

function setProcessor(view, p, value) {
  const state = value.slice(9);
  const open = /^(\d+)$/.exec(state);
  view.pc[p] = value.slice(0, 8);
  view.status[p] = open || state === '' ? 'run' : state;
  view.word[p] = open ? Number(open[1]) : -1;
}

// Puts a line of changes on a view. Gives the numbers of the places that it sets to `placed`, if it is given.
function putChanges(view, line, placed) {
  let at = 0;
  for (let end = line.indexOf('\t'); end >= 0; end = line.indexOf('\t', at)) {
    const equals = line.indexOf('=', at);
    const name = line.slice(at, equals);
    const value = line.slice(equals + 1, end);
    const dot = name.indexOf('.');
    const x = name.indexOf('x');
    if (dot >= 0) {
      const place = Number(name.slice(0, dot)) * view.n + Number(name.slice(dot + 1));
      view.places[place] = value;
      if (placed) placed(place, value);
    } else if (name[0] === 'w') {
      view.words.set(Number(name.slice(1)), parseInt(value, 16));
    } else if (x >= 0) {
      view.registers[32 * Number(name.slice(0, x)) + Number(name.slice(x + 1))] = parseInt(value, 16);
    } else {
      setProcessor(view, Number(name), value);
    }
    at = end + 1;
  }
}

// ---- what stands at a place

const placeCache = new Map();

function itemsIn(text) {
  const items = { requests: [], records: [], replies: [] };
  for (const it of text.split(/(?=[?&!])/)) {
    const colon = it.indexOf(':');
    if (it[0] === '?') {
      const sign = it.indexOf('@');
      items.requests.push({ f: it.slice(1, sign), word: Number(it.slice(sign + 1, colon)),
        leader: Number(it.slice(colon + 1)) });
    } else if (it[0] === '&') {
      const comma = it.indexOf(',');
      items.records.push({ second: Number(it.slice(1, comma)), leader: Number(it.slice(comma + 1, colon)),
        f: it.slice(colon + 1) });
    } else if (it[0] === '!') {
      items.replies.push({ value: parseInt(it.slice(1, colon), 16), leader: Number(it.slice(colon + 1)) });
    }
  }
  return items;
}

// The items of a place. Few texts of places differ, so they are kept.
function itemsAt(view, depth, wire) {
  const text = view.places[depth * view.n + wire];
  let items = placeCache.get(text);
  if (!items) {
    if (placeCache.size > 5000) placeCache.clear();
    items = itemsIn(text);
    placeCache.set(text, items);
  }
  return items;
}

// ---- groups: the processors that a message stands for, read off the records between it and the processors

// For each stage, the seconds of each leader, in the order of their combinations.
function secondsOf(view) {
  const stages = [];
  for (let stage = 0; stage < view.k; stage++) {
    const seconds = new Map();
    for (let wire = 0; wire < view.n; wire++) {
      for (const it of itemsAt(view, stage + 1, wire).records) {
        if (!seconds.has(it.leader)) seconds.set(it.leader, []);
        seconds.get(it.leader).push(it.second);
      }
    }
    stages.push(seconds);
  }
  return stages;
}

// The group of a message at a depth: down through each stage a leader is followed by its seconds there.
function groupOf(seconds, depth, leader) {
  let group = [leader];
  for (let stage = depth - 1; stage >= 0; stage--) {
    if (seconds[stage].size) group = group.flatMap((p) => [p].concat(seconds[stage].get(p) || []));
  }
  return group;
}

// ---- wires: the shuffle rotates the bits of a wire's number to the left

function rotatedLeft(k, wire) {
  return k ? (wire << 1 | wire >> (k - 1)) & ((1 << k) - 1) : wire;
}

function rotatedRight(k, wire) {
  return k ? wire >> 1 | (wire & 1) << (k - 1) : wire;
}

// the wire after a stage of a message to a module, and the one before it of a reply to a processor
function wireAfter(k, stage, wire, module) {
  return rotatedLeft(k, wire) & ~1 | module >> (k - 1 - stage) & 1;
}

function wireBefore(k, stage, wire, processor) {
  return rotatedRight(k, wire & ~1 | processor >> (k - 1 - stage) & 1);
}

// The run: the view after any number of steps, and facts about each step. One pass over the steps keeps a copy of the
// view every so many steps (checkpoints) and collects the facts; it goes on in pieces beside the drawing.

function makeHistory(data) {
  const every = Math.max(64, Math.ceil(data.steps / 400));
  const n = data.n, k = data.k, steps = data.steps;
  const opening = emptyView(data);
  putChanges(opening, data.opening);
  const scan = copyOfView(opening);
  const checkpoints = [opening];
  const facts = {
    known: 0,
    kind: new Uint8Array(steps), word: new Int32Array(steps).fill(-1),
    low: new Uint32Array(steps), high: new Uint32Array(steps), // the processors that a step concerns, as bits
    orderStep: new Uint32Array(data.orders), ordered: 0, // the step at which each order line came to be
    afterStep: new Uint32Array(steps + 1), // how many order lines there are after so many steps
    moving: new Uint16Array(steps + 1), // messages on their way
    // of each stage, the longest queue of requests after it or of replies before it
    queues: Array.from({ length: k }, () => new Uint16Array(steps + 1)),
    listing: new Map(), // pc -> { text, from: the first order line }
    // order lines that refer to a shared word: { order, word, p, saw: the index of the writer or -1, writes }
    references: [],
    refersAt: new Uint32Array(steps + 1),
    // bytes that processors printed: { order, p, byte }
    prints: [],
  };

  // ---- the pass

  const groupLow = new Uint32Array(n), groupHigh = new Uint32Array(n), openWord = new Int32Array(n).fill(-1);
  const requests = new Uint16Array((k + 1) * n), replies = new Uint16Array((k + 1) * n);
  const longest = [new Uint16Array(k + 1), new Uint16Array(k + 1)]; // of requests and of replies at each depth
  const lastWriter = new Map();
  let moving = 0;

  const marks = (text, mark) => {
    let found = 0;
    for (let at = text.indexOf(mark); at >= 0; at = text.indexOf(mark, at + 1)) found++;
    return found;
  };

  function placed(place, text) {
    const up = marks(text, '?'), down = marks(text, '!'), depth = Math.floor(place / n);
    moving += up + down - requests[place] - replies[place];
    requests[place] = up;
    replies[place] = down;
    longest[0][depth] = longest[1][depth] = 0;
    for (let it = depth * n; it < depth * n + n; it++) {
      if (requests[it] > longest[0][depth]) longest[0][depth] = requests[it];
      if (replies[it] > longest[1][depth]) longest[1][depth] = replies[it];
    }
  }

  // A page may begin with messages on their way.
  function begin() {
    const seconds = secondsOf(opening);
    for (let place = 0; place < opening.places.length; place++) {
      if (!opening.places[place]) continue;
      placed(place, opening.places[place]);
      const depth = Math.floor(place / n), items = itemsAt(opening, depth, place % n);
      for (const it of items.requests.concat(items.replies)) {
        for (const p of groupOf(seconds, depth, it.leader)) {
          if (p < 32) groupLow[it.leader] |= 1 << p; else groupHigh[it.leader] |= 1 << (p - 32);
        }
      }
    }
    openWord.set(opening.word);
    facts.moving[0] = moving;
    for (let it = 0; it < k; it++) facts.queues[it][0] = Math.max(longest[0][it + 1], longest[1][it]);
  }

  // the leader of the first message with this mark at a place, or -1
  function leaderAt(depth, wire, mark) {
    const text = scan.places[depth * n + wire];
    const at = text ? text.indexOf(mark) : -1;
    return at < 0 ? -1 : parseInt(text.slice(text.indexOf(':', at) + 1), 10);
  }

  function concern(i, p) {
    if (p < 32) facts.low[i] |= 1 << p; else facts.high[i] |= 1 << (p - 32);
  }

  function concernGroup(i, leader) {
    if (leader < 0) return;
    facts.low[i] |= groupLow[leader];
    facts.high[i] |= groupHigh[leader];
    facts.word[i] = openWord[leader];
  }

  function addReference(line, it) {
    const loads = /^l[bhw]/.test(it.instruction);
    const writes = !loads;
    const stores = it.poke || /^s[bhw] /.test(it.instruction);
    const saw = !stores && lastWriter.has(it.word) ? lastWriter.get(it.word) : -1;
    if (writes) lastWriter.set(it.word, facts.references.length);
    facts.references.push({ order: line, word: it.word, p: it.p, saw, writes });
  }

  // the next line of the order came to be in step i
  function addOrderLine(i) {
    const at = facts.ordered;
    if (at >= data.orders) return;
    facts.orderStep[at] = i;
    facts.ordered = at + 1;
    const it = orderedBy(data.order(at));
    if (!it.poke && !facts.listing.has(it.pc)) facts.listing.set(it.pc, { text: it.instruction, from: at });
    if (it.word >= 0) addReference(at, it);
    if (it.console) facts.prints.push({ order: at, p: it.p, byte: parseInt(it.console, 16) });
  }

  function learn(i) {
    const outcome = outcomeOf(data.story(i));
    facts.kind[i] = outcome.kind;
    if (outcome.p >= 0) concern(i, outcome.p);
    if (outcome.kind === SEND) {
      openWord[outcome.p] = facts.word[i] = outcome.word;
      groupLow[outcome.p] = groupHigh[outcome.p] = 0;
      if (outcome.p < 32) groupLow[outcome.p] = 1 << outcome.p; else groupHigh[outcome.p] = 1 << (outcome.p - 32);
    } else if (outcome.kind === RETIRE || outcome.kind === STOP) {
      if (openWord[outcome.p] < 0) addOrderLine(i);
      else facts.word[i] = openWord[outcome.p];
      openWord[outcome.p] = -1;
    } else if (outcome.kind === MOVE) {
      concernGroup(i, leaderAt(outcome.stage, outcome.wire, '?'));
    } else if (outcome.kind === JOIN) {
      groupLow[outcome.leader] |= groupLow[outcome.second];
      groupHigh[outcome.leader] |= groupHigh[outcome.second];
      concernGroup(i, outcome.leader);
    } else if (outcome.kind === SERVE) {
      for (const p of outcome.group) { concern(i, p); addOrderLine(i); }
      facts.word[i] = outcome.word;
    } else if (outcome.kind === POKE) {
      facts.word[i] = outcome.word;
      addOrderLine(i);
    } else {
      const leader = leaderAt(outcome.stage + 1, outcome.wire, '!');
      concernGroup(i, leader);
      // those who were split off have replies of their own from here on
      for (const p of outcome.seconds || []) { groupLow[leader] &= ~groupLow[p]; groupHigh[leader] &= ~groupHigh[p]; }
    }
    putChanges(scan, data.change(i), placed);
    facts.moving[i + 1] = moving;
    for (let it = 0; it < k; it++) facts.queues[it][i + 1] = Math.max(longest[0][it + 1], longest[1][it]);
    facts.afterStep[i + 1] = facts.ordered;
    facts.refersAt[i + 1] = facts.references.length;
    facts.known = i + 1;
    if (facts.known % every === 0) checkpoints.push(copyOfView(scan));
  }

  // learns all of the first so many steps
  function reach(step) {
    while (facts.known < step) learn(facts.known);
  }

  // learns the rest in pieces; `then` is called at the end of each
  function learnAll(then) {
    const until = performance.now() + 24;
    while (facts.known < steps && performance.now() < until) reach(Math.min(steps, facts.known + 100));
    then(facts.known === steps);
    if (facts.known < steps) setTimeout(() => learnAll(then), 4);
  }

  // ---- the view that is shown

  begin();
  let view = copyOfView(opening);
  let shown = 0;

  function seek(step) {
    if (step === shown) return view;
    const base = Math.floor(step / every);
    if (step < shown || base * every > shown) {
      reach(base * every);
      view = copyOfView(checkpoints[base]);
      shown = base * every;
    }
    while (shown < step) putChanges(view, data.change(shown++));
    reach(step);
    return view;
  }

  // the next step after or before `from` of one of these kinds that concerns processor p and word w (-1: any), or -1
  function find(from, forwards, kinds, p, w) {
    const wanted = new Uint8Array(16);
    for (const it of kinds) wanted[it] = 1;
    for (let i = forwards ? from : from - 2; i >= 0 && i < steps; i += forwards ? 1 : -1) {
      if (i >= facts.known) reach(i + 1);
      if (wanted[facts.kind[i]] && (w < 0 || facts.word[i] === w) && (p < 0 || concerns(i, p))) return i;
    }
    return -1;
  }

  function concerns(i, p) {
    return Boolean((p < 32 ? facts.low[i] >>> p : facts.high[i] >>> (p - 32)) & 1);
  }

  // what a processor has printed since the page's first step
  function consoleOf(p, step) {
    const bytes = facts.prints.filter((it) => it.p === p && it.order < facts.afterStep[step]).map((it) => it.byte);
    return bytes.map((it) => (it >= 32 && it < 127 && it !== 92 ? String.fromCharCode(it)
      : it === 10 ? '\\n' : '\\x' + it.toString(16).padStart(2, '0'))).join('');
  }

  return { data, facts, seek, reach, learnAll, find, concerns, consoleOf };
}

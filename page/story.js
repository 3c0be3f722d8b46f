// What story lines say, as data.

const SEND = 1, RETIRE = 2, STOP = 3, MOVE = 4, JOIN = 5, SERVE = 6, BACK = 7, SPLIT = 8, POKE = 9;

// the kinds by which a reader can jump
const kindNames = { join: [JOIN], serve: [SERVE], retire: [RETIRE], stop: [STOP], split: [SPLIT], send: [SEND],
  poke: [POKE] };

// A line `N STEP: OUTCOME`: its kind, its numbers, and what is particular to the kind.
function outcomeOf(line) {
  const colon = line.indexOf(': ');
  const head = line.slice(0, colon).split(' ');
  const text = line.slice(colon + 2);
  const a = Number(head[2]), b = Number(head[3]);
  if (head[1] === 'turn') {
    const kind = text.startsWith('sends') ? SEND : text.startsWith('stops') ? STOP : RETIRE;
    const word = kind === SEND ? /to word (\d+)$/.exec(text) || /word (\d+)$/.exec(text) : null;
    return { kind, p: a, word: word ? Number(word[1]) : -1 };
  }
  if (head[1] === 'up') {
    const joined = /^(\d+) joins (\d+) /.exec(text);
    if (!joined) return { kind: MOVE, stage: a, wire: b };
    return { kind: JOIN, stage: a, wire: b, second: Number(joined[1]), leader: Number(joined[2]) };
  }
  if (head[1] === 'down') {
    const split = /^answers ([\d ]+) at stage/.exec(text);
    if (!split) return { kind: BACK, stage: a, wire: b };
    return { kind: SPLIT, stage: a, wire: b, seconds: split[1].split(' ').map(Number) };
  }
  if (head[1] === 'serve') {
    const served = /^serves \d+: ([\d ]+): word (\d+) ([0-9a-f]{8}) to ([0-9a-f]{8})/.exec(text);
    if (served) {
      return { kind: SERVE, module: a, group: served[1].split(' ').map(Number), word: Number(served[2]),
        before: parseInt(served[3], 16), after: parseInt(served[4], 16) };
    }
  }
  const address = head[2] === '-' ? parseInt(head[3], 16) : 0;
  return { kind: POKE, p: head[2] === '-' ? -1 : a, word: head[2] === '-' ? (address - 0x80000000) >>> 2 : -1 };
}

// An order line `N P ADDRESS TEXT ..`, or `N P poke PLACE VALUE ..`, by its parts.
function orderedBy(line) {
  const parts = /^(\d+) (\S+) (poke )?(\S+) (.*)$/.exec(line);
  const reference = / word (\d+) ([0-9a-f]{8}) ([0-9a-f]{8})$/.exec(line);
  const poke = Boolean(parts[3]);
  const text = parts[5].replace(/ word \d+ [0-9a-f]{8} [0-9a-f]{8}$/, '');
  return {
    number: Number(parts[1]), p: parts[2] === '-' ? -1 : Number(parts[2]), poke, pc: poke ? '' : parts[4],
    instruction: poke ? 'poke ' + parts[4] + ' ' + text : text.replace(/( = [0-9a-f]{8})?( console [0-9a-f]{2})?$/, ''),
    result: (/ = ([0-9a-f]{8})/.exec(text) || [])[1],
    console: (/ console ([0-9a-f]{2})/.exec(text) || [])[1],
    word: reference ? Number(reference[1]) : -1,
    before: reference ? parseInt(reference[2], 16) : 0, after: reference ? parseInt(reference[3], 16) : 0,
  };
}

// Texts: numbers in the chosen base, functions, and lines as `ultra picture` words them.

let decimal = true;

function hex8(value) {
  return (value >>> 0).toString(16).padStart(8, '0');
}

// a value as a line tells it
function valueText(value) {
  return decimal ? String(value | 0) : hex8(value);
}

// a value as short as the base allows, for the drawing
function shortValue(value) {
  return decimal ? String(value | 0) : (value >>> 0).toString(16);
}

// a text with each value (eight hex digits that stand alone) in the chosen base
function withValues(text) {
  return decimal ? text.replace(/\b[0-9a-f]{8}\b/g, (it) => String(parseInt(it, 16) | 0)) : text;
}

// a line of a story in the chosen base; an address of a write from outside stays as it is
function storyText(line) {
  const poke = /^(\d+ poke \S+ [0-9a-f]{8}\b)(.*)$/.exec(line);
  return withWordNames(poke ? poke[1] + withValues(poke[2]) : withValues(line));
}

// a line of an order in the chosen base: after its third word, the address
function orderText(line) {
  const parts = /^(\S+ \S+ (?:poke )?\S+)(.*)$/.exec(line);
  return withWordNames(parts ? parts[1] + withValues(parts[2]) : line);
}

const shortSigns = { store: '=', and: '&', or: '|', xor: '^', min: 'min ', max: 'max ', minu: 'minu ', maxu: 'maxu ' };

// a function as short as `+5`
function shortFunction(f) {
  return f.replace(/([a-z]+) ([0-9a-f]{8})/g, (all, name, digits) => {
    const value = parseInt(digits, 16);
    if (name === 'add') return (value >>> 31 ? '-' : '+') + (decimal ? Math.abs(value | 0)
      : Math.abs(value | 0).toString(16));
    return shortSigns[name] + shortValue(value);
  });
}

function groupText(group) {
  const shown = group.length > 8 ? group.slice(0, 4).join(' ') + ' .. ' + group.length : group.join(' ');
  return '{' + shown + '}';
}

function requestText(it, group) {
  return withValues(it.f) + (it.f === 'load' ? ' ' : ' to ') + wordName(it.word) + ' ' + groupText(group);
}

function recordText(it) {
  return it.second + ' waits for ' + it.leader + ': ' + withValues(it.f);
}

function replyText(it, group) {
  return 'reply ' + valueText(it.value) + ' ' + groupText(group);
}

function processorText(view, p) {
  return p + ' ' + view.status[p] + ' ' + pcText(view.pc[p]) + (view.word[p] >= 0 ? ' ' + wordName(view.word[p]) : '');
}

function wordText(word, value) {
  return wordName(word) + ' = ' + valueText(value);
}

// a word as short as it can be
function shortWord(word) {
  return placeOfWord(word) ? wordName(word) : 'w' + word;
}

function count(number, one, many) {
  return number + ' ' + (number === 1 ? one : many || one + 's');
}

// ---- elements

function make(name, attributes, text) {
  const element = document.createElement(name);
  for (const it in attributes || {}) element.setAttribute(it, attributes[it]);
  if (text !== undefined) element.textContent = text;
  return element;
}

function draw(name, attributes, text) {
  const element = document.createElementNS('http://www.w3.org/2000/svg', name);
  for (const it in attributes || {}) element.setAttribute(it, attributes[it]);
  if (text !== undefined) element.textContent = text;
  return element;
}

function byId(id) {
  return document.getElementById(id);
}

// ---- colours: one for each processor, by which white letters can be read

const firstColours = ['#1f6fd6', '#bf4a12', '#188043', '#8a3fc0', '#8d6400', '#0b7d8e', '#c42f7e', '#56657a'];

function colourOf(p) {
  return p < 8 ? firstColours[p] : 'hsl(' + Math.round(p * 137.5 % 360) + ' 62% 34%)';
}

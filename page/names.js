// Names: the symbols of the data, by address, and what they name.

const names = { symbols: [] };

// The place of an address: the last symbol at or below it, and how far the address is from it. Null if there is none, or
// if the address is past its end.
function placeOfAddress(address) {
  let low = 0, high = names.symbols.length;
  while (low < high) {
    const middle = (low + high) >> 1;
    if (names.symbols[middle].address <= address) low = middle + 1; else high = middle;
  }
  const it = names.symbols[low - 1];
  if (!it || it.size > 0 && address - it.address >= it.size) return null;
  return { name: it.name, offset: address - it.address };
}

// `LABEL` or `LABEL+0xHEX`, in so many letters. Of a longer one the label is cut, but not the offset.
function placeText(place, letters) {
  const offset = place.offset ? '+0x' + place.offset.toString(16) : '';
  const room = Math.max(0, letters - offset.length);
  return (place.name.length <= room ? place.name : place.name.slice(0, Math.max(0, room - 2)) + '..') + offset;
}

function placeOfWord(word) {
  return word < 0x20000000 ? placeOfAddress(0x80000000 + 4 * word) : null;
}

// a program counter, or its name
function pcText(pc) {
  const place = placeOfAddress(parseInt(pc, 16));
  return place ? placeText(place, 24) : pc;
}

// `word N`, or its name
function wordName(word) {
  const place = placeOfWord(word);
  return place ? placeText(place, 24) : 'word ' + word;
}

// `word N`, with its name
function wordTitle(word) {
  const place = placeOfWord(word);
  return 'word ' + word + (place ? ' (' + placeText(place, Infinity) + ')' : '');
}

// a line with a name after the number of each word, as `--symbols` prints it
function withWordNames(line) {
  return names.symbols.length ? line.replace(/\bword (\d+)\b/g, (it, number) => wordTitle(Number(number))) : line;
}

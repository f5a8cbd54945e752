// What JavaScript computes in place of definitions, as natives.py does for Python. Each function has the name of the definition whose place it takes.
'use strict';

const $FAULTY = $error($single('Faulty'));
const $MOST_TRANSACTION = 4194304, $MOST_NUMBER = 2n ** 62n;

class $Reader {
  constructor(octets) { this.octets = octets; this.at = 0; }

  take(count) {
    const field = this.octets.slice(this.at, this.at + count);
    if (field.length < count) throw new $Refusal();
    this.at += count;
    return field;
  }

  unsigned(size, least = 0, most = Infinity) {
    const number = $little(this.take(size));
    if (!(least <= number && number <= most)) throw new $Refusal();
    return number;
  }

  word(most) {
    const field = this.take(this.unsigned(1, 1, most));
    if (!/^[\x21-\x7e]*$/.test(field)) throw new $Refusal();
    return field;
  }

  counted() { return this.take(this.unsigned(4)); }

  end() { if (this.at < this.octets.length) throw new $Refusal(); }
}

class $Refusal extends Error {}

function $little(octets) {
  let low = 0, high = 0;
  for (let place = Math.min(octets.length, 4) - 1; place >= 0; place--) low = low * 256 + octets.charCodeAt(place);
  for (let place = octets.length - 1; place >= 4; place--) high = high * 256 + octets.charCodeAt(place);
  return high < 2 ** 21 ? high * 2 ** 32 + low : $plain(BigInt(high) * 2n ** 32n + BigInt(low));
}

function $littleOctets(size, number) {
  let found = '';
  if (typeof number === 'bigint') {
    for (let place = 0; place < size; place++, number >>= 8n) found += String.fromCharCode(Number(number & 255n));
  } else {
    for (let place = 0; place < size; place++, number = Math.floor(number / 256)) found += String.fromCharCode(number % 256);
  }
  return found;
}

const $word = text => String.fromCharCode(text.length) + $octets(text);
const $counted = text => $littleOctets(4, text.length) + $octets(text);

// ---- transactions

function $changeText({name, args}) {
  if (name === 'Put') return '\x01' + $word(args[0]) + $word(args[1]) + $counted(args[2]);
  if (name === 'Erase') return '\x02' + $word(args[0]) + $word(args[1]);
  if (name === 'ErasePrefix') return '\x03' + $word(args[0]);
  return '\x04' + $word(args[0]) + $littleOctets(8, args[1]) + $littleOctets(8, args[2]);
}

const $texts = new WeakMap(), $changeTexts = new WeakMap();

// The text of a change. It is kept, since one change is encoded in several transactions.
function $changeTextOf(change) {
  let text = $changeTexts.get(change);
  if (text === undefined) $changeTexts.set(change, text = $changeText(change));
  return text;
}

function mon_tx__Text__text(changes) {
  let text = $texts.get(changes);
  if (text === undefined) {
    const items = $items(changes), form = items.some(change => change.name === 'EraseRange') ? 2 : 1;
    $texts.set(changes, text = String.fromCharCode(form) + $littleOctets(4, changes.length) + items.map($changeTextOf).join(''));
  }
  return text;
}

function $changeIn(reader, form) {
  const kind = reader.unsigned(1, 1, 2 + form), prefix = reader.word(32);
  if (kind === 1) return $made('Put', [prefix, reader.word(255), reader.counted()]);
  if (kind === 2) return $made('Erase', [prefix, reader.word(255)]);
  if (kind === 3) return $made('ErasePrefix', [prefix]);
  const first = reader.unsigned(8, 0, $MOST_NUMBER);
  return $made('EraseRange', [prefix, first, reader.unsigned(8, $sum(first, 1), $MOST_NUMBER)]);
}

function $changesIn(reader) {
  if (reader.octets.length > $MOST_TRANSACTION) throw new $Refusal();
  const form = reader.unsigned(1, 1, 2), changes = [];
  for (let left = reader.unsigned(4); left > 0; left--) changes.push($changeIn(reader, form));
  if (form === 2 && !changes.some(change => change.name === 'EraseRange')) throw new $Refusal();
  return changes;
}

function $decoder(read) {
  return octets => {
    try {
      const reader = new $Reader($octets(octets)), found = read(reader);
      reader.end();
      return $okay(found);
    } catch (why) {
      if (why instanceof $Refusal) return $FAULTY;
      throw why;
    }
  };
}

const mon_tx__Decode__transaction_of = $kept(100000, $decoder($changesIn));

// ---- the map of a store

function mon_tx__Map__is_within(first, end, key) {
  const text = $octets(key);
  if (!/^(0|[1-9][0-9]*)$/.test(text)) return false;
  const number = $number(text);
  return first <= number && number < end;
}

// The text of a place is as long as its prefix and key, and a zero byte between them.
const $entrySize = (place, value) => place.length + value.length + 15;

function mon_kv__Readers__size_of(store) {
  if (store.size < 0) {
    store.size = 0;
    for (const [place, value] of store.entries) store.size += $entrySize(place, value);
  }
  return store.size;
}

function $erased({name, args}, places) {
  const prefix = $octets(args[0]) + '\0';
  if (name === 'Erase') return [prefix + $octets(args[1])];
  const within = [...places].filter(place => place.startsWith(prefix));
  return name === 'ErasePrefix' ? within : within.filter(place => mon_tx__Map__is_within(args[1], args[2], place.slice(prefix.length)));
}

function $applied(changes, store) {
  if (changes.length === 0) return store;
  const entries = store.entries, made = new Map();
  for (const change of $items(changes)) {
    if (change.name === 'Put') {
      made.set($key([change.args[0], change.args[1]]), $octets(change.args[2]));
    } else {
      const places = change.name === 'Erase' ? [] : new Set([...entries.keys(), ...made.keys()]);
      for (const place of $erased(change, places)) made.set(place, undefined);
    }
  }
  let size = mon_kv__Readers__size_of(store);
  for (const [place, value] of made) {
    const old = entries.get(place);
    size += (value === undefined ? 0 : $entrySize(place, value)) - (old === undefined ? 0 : $entrySize(place, old));
  }
  return store.changed(made, size);
}

// The last transaction that was applied, since the map after it is asked for several times.
const $last = {changes: null, store: null, after: null};

function mon_tx__Map__apply(changes, store) {
  if ($last.changes !== changes || $last.store !== store) Object.assign($last, {changes, store, after: $applied(changes, store)});
  return $last.after;
}

const mon_tx__Map__apply_op = (change, store) => $applied([change], store);
const mon_tx__Map__number_bytes = number => $littleOctets(8, number);

function mon_tx__Map__number_in(cell) {
  if (cell.args.length === 0 || cell.args[0].length !== 8) return 0;
  const number = $little($octets(cell.args[0]));
  return typeof number === 'number' || number <= $MOST_NUMBER ? number : 0;
}


function mon_tx__Map__place_cmp(a, b) {
  const prefix = $octets(a[0]), other = $octets(b[0]);
  return prefix === other ? $compared($octets(a[1]), $octets(b[1])) : $compared(prefix, other);
}

const mon_tx__Keys__decimal_text = number => String(number);
const byteorder__Endian__little_number = (size, octets) => $little($octets(octets.slice(0, size)));
const byteorder__Endian__little_bytes = (size, number) => $littleOctets(size, number);

// ---- the maps of services

function $utf8(octets) {
  try {
    $decoded(octets);
    return octets;
  } catch (why) {
    throw new $Refusal();
  }
}

const map_kv__Decode__inc_of = $decoder(reader => {
  const kind = reader.unsigned(1, 1, 2), name = reader.word(255);
  return kind === 1 ? $made('Set', [name, $utf8(reader.counted())]) : $made('Remove', [name]);
});

const map_kv__Decode__map_of = $decoder(reader => {
  const found = new Map();
  for (let left = reader.unsigned(4), last = ''; left > 0; left--) {
    const key = reader.word(255);
    if (!(last < key)) throw new $Refusal();
    found.set(last = key, $utf8(reader.counted()));
  }
  return new $Map(found);
});

const map_kv__Text__inc_text = ({name, args}) => (name === 'Set' ? '\x01' + $word(args[0]) + $counted(args[1]) : '\x02' + $word(args[0]));
const map_kv__Text__map_text = $kept(1000, map =>
  $littleOctets(4, map.entries.size) + map.sorted().map(([key, value]) => $word(key) + $counted(value)).join(''));

const $logChange = reader => ({rank: reader.unsigned(1, 0, 14), text: $utf8(reader.counted())});
const map_log__Decode__inc_of = $decoder($logChange);
const map_log__Decode__map_of = $decoder(reader => Array.from({length: reader.unsigned(4)}, () => $logChange(reader)));
const map_log__Text__inc_text = ({rank, text}) => String.fromCharCode(rank) + $counted(text);
const map_log__Text__map_text = $kept(1000, changes => $littleOctets(4, changes.length) + $items(changes).map(map_log__Text__inc_text).join(''));

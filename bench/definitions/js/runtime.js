// The values of definitions and the part of the standard library that they use. antt/primitives.py has the same for Python.
//
// A number is a number, or a BigInt above 2^53 - 1. A list of bytes is a text whose characters are the bytes, or an array; any other list is an array, and so
// is a pair. A function takes one argument: f(x)(y). A record is an object.
'use strict';

class $Made {
  constructor(name, args) { this.name = name; this.args = args; }
}

class $NoCase extends Error {}

// A finite map. The text of a key is its bytes, or those of a pair with a zero byte between them. `size` is that of a store, once it is known.
//
// Maps that come of one another share their entries. The newest map that was used has them. Each other one has what differs from a newer one, and takes them
// back when it is used.
class $Map {
  constructor(entries, size = -1) { this.own = entries; this.size = size; this.newer = null; this.olds = null; }

  get entries() {
    if (this.newer !== null) this.takeBack();
    return this.own;
  }

  takeBack() {
    const older = [];
    let at = this;
    for (; at.newer !== null; at = at.newer) older.push(at);
    for (; older.length > 0; at = older.pop()) {
      const it = older[older.length - 1], entries = at.own, olds = it.olds.map(([key]) => [key, entries.get(key)]);
      for (const [key, value] of it.olds) $put(entries, key, value);
      Object.assign(at, {own: null, newer: it, olds: olds.reverse()});
      Object.assign(it, {own: entries, newer: null, olds: null});
    }
  }

  // The map after changes: pairs of a key and a value, or of a key and undefined if the key goes.
  changed(changes, size = -1) {
    if (this.entries.size === 0) return new $Map(new Map([...changes].filter(([, value]) => value !== undefined)), size);
    const entries = this.entries, olds = [];
    for (const [key, value] of changes) {
      olds.push([key, entries.get(key)]);
      $put(entries, key, value);
    }
    const found = new $Map(entries, size);
    Object.assign(this, {own: null, newer: found, olds: olds.reverse()});
    return found;
  }

  // The texts of the keys with their values, in order.
  sorted() { return [...this.entries].sort((a, b) => $compared(a[0], b[0])); }
}

function $put(entries, key, value) {
  if (value === undefined) entries.delete(key);
  else entries.set(key, value);
}

// A long list to which items are added at its end. Lists that come of one another share their items.
class $Long {
  constructor(shared, length) { this.shared = shared; this.length = length; }

  slice(from, to = this.length) { return this.shared.slice(from, Math.min(to, this.length)); }

  map(f) { return this.slice(0).map(f); }

  filter(f) { return this.slice(0).filter(f); }

  [Symbol.iterator]() { return this.slice(0)[Symbol.iterator](); }

  with(items) {
    const shared = this.shared.length === this.length ? this.shared : this.slice(0);
    for (const item of items) shared.push(item);
    return new $Long(shared, shared.length);
  }
}

const $LONG = 32;
const $nil = Object.freeze([]);
const $singles = new Map();
const $made = (name, args) => new $Made(name, args);
const $some = value => new $Made('Some', [value]);
const $okay = value => new $Made('Ok', [value]);
const $error = value => new $Made('Err', [value]);

function $single(name) {
  if (!$singles.has(name)) $singles.set(name, new $Made(name, $nil));
  return $singles.get(name);
}

const $none = $single('None');
const $refl = $single('tt');
const $ltb_true = () => $refl;

// A constructor that lacks arguments is a function, too.
function $apply(f, argument) {
  return typeof f === 'function' ? f(argument) : new $Made(f.name, [...f.args, argument]);
}

// ---- numbers

const $MOST_PLAIN = Number.MAX_SAFE_INTEGER;
const $plain = big => (big <= $MOST_PLAIN ? Number(big) : big);
const $exact = (number, big) => (typeof number === 'number' && number <= $MOST_PLAIN ? number : $plain(big()));

function $sum(a, b) {
  if (typeof a === 'number' && typeof b === 'number' && a + b <= $MOST_PLAIN) return a + b;
  return $plain(BigInt(a) + BigInt(b));
}

function $difference(a, b) {
  if (a <= b) return 0;
  return typeof a === 'number' && typeof b === 'number' ? a - b : $plain(BigInt(a) - BigInt(b));
}

function $product(a, b) {
  if (typeof a === 'number' && typeof b === 'number' && a * b <= $MOST_PLAIN) return a * b;
  return $plain(BigInt(a) * BigInt(b));
}

function $quotient(a, b) {
  return typeof a === 'number' && typeof b === 'number' ? Math.floor(a / b) : $plain(BigInt(a) / BigInt(b));
}

function $remainder(a, b) {
  return typeof a === 'number' && typeof b === 'number' ? a % b : $plain(BigInt(a) % BigInt(b));
}

const $power = (a, b) => $plain(BigInt(a) ** BigInt(b));
const $number = text => (text.length < 16 ? Number(text) : $plain(BigInt(text)));
const $min = (a, b) => (a <= b ? a : b);
const $max = (a, b) => (a >= b ? a : b);
const $div_ceil = (a, b) => $quotient($sum(a, $difference(b, 1)), b);
const $abs_diff = (a, b) => (a <= b ? $difference(b, a) : $difference(a, b));
const $not = a => !a;
const $nat_le = (a, b) => a <= b;
const $nat_lt = (a, b) => a < b;
const $cond = (test, a, b) => (test ? a : b);

// ---- lists

// The items of a list, as an array.
function $items(list) {
  if (typeof list === 'string') return Array.from(list, letter => letter.charCodeAt(0));
  return Array.isArray(list) ? list : list.slice(0);
}

function $item(list, place) {
  if (typeof list === 'string') return list.charCodeAt(place);
  return Array.isArray(list) ? list[place] : list.shared[place];
}

// A list of bytes as a text.
function $octets(list) {
  if (typeof list === 'string') return list;
  let text = '';
  for (const octet of list) text += String.fromCharCode(octet);
  return text;
}

function $cons(head, tail) {
  if (typeof tail === 'string' && tail.length > 0 && head < 256) return String.fromCharCode(head) + tail;
  return [head, ...$items(tail)];
}

function $joined(a, b) {
  if (a.length === 0) return b;
  if (b.length === 0) return a;
  if (typeof a === 'string' && typeof b === 'string') return a + b;
  if (a instanceof $Long) return a.with($items(b));
  const items = $items(a).concat($items(b));
  return items.length < $LONG ? items : new $Long(items, items.length);
}

const $length = list => list.length;
const $filter = (f, list) => $items(list).filter(item => $apply(f, item));
const $map = (f, list) => $items(list).map(item => $apply(f, item));
const $flat_map = (f, list) => [].concat(...$items(list).map(item => $items($apply(f, item))));
const $filter_map = (f, list) => $map(f, list).filter(value => value.args.length).map(value => value.args[0]);
const $replicate = (count, item) => Array(count).fill(item);
const $take = (count, list) => list.slice(0, count);
const $drop = (count, list) => list.slice(Number(count));
const $sum_by = (f, list) => $items(list).reduce((sum, item) => $sum(sum, $apply(f, item)), 0);
const $count_by = (f, list) => $filter(f, list).length;
const $slice_index_or = (list, index, other) => (index < list.length ? $item(list, index) : other);
const $get_or = $slice_index_or;
const $slice_index = (list, index) => $item(list, index);
const $slice_get = (list, index) => (index < list.length ? $some($item(list, index)) : $none);

function $slice_set(list, index, value) {
  if (index >= list.length) return list;
  const copy = $items(list).slice();
  copy[index] = value;
  return copy;
}


function $range_with_len(first, count) {
  const found = [];
  for (let place = 0; place < count; place++) found.push($sum(first, place));
  return found;
}

const $list_all = (f, list) => $items(list).every(item => $apply(f, item));
const $list_any = (f, list) => $items(list).some(item => $apply(f, item));
const $zip = (a, b) => Array.from({length: Math.min(a.length, b.length)}, (_, place) => [$item(a, place), $item(b, place)]);
const $enumerate_from = (first, list) => $items(list).map((item, place) => [first + place, item]);
const $last_or = (other, list) => (list.length ? $some($item(list, list.length - 1)) : other);

function $find(f, list) {
  const place = $items(list).findIndex(item => $apply(f, item));
  return place < 0 ? $none : $some($item(list, place));
}

// ---- options and results

const $is_some = value => value.args.length > 0;
const $is_err = value => value.name === 'Err';
const $is_ok = value => value.name === 'Ok';
const $unwrap_or = (value, other) => (value.args.length ? value.args[0] : other);
const $option_map = (f, value) => (value.args.length ? $some($apply(f, value.args[0])) : value);
const $option_and_then = (f, value) => (value.args.length ? $apply(f, value.args[0]) : value);
const $option_map_or = (f, value, other) => (value.args.length ? $apply(f, value.args[0]) : other);

// ---- orderings: a number below, at or above 0

const $compared = (a, b) => (a === b ? 0 : a < b ? -1 : 1);
const $nat_cmp = $compared;
const $bool_cmp = $compared;
const $is_lt = order => order < 0;
const $then_cmp = (f, g, a, b) => f(a)(b) || g(a)(b);
const $ordering_then = (first, second) => first || second;
const $on = (key, f, a, b) => f($apply(key, a))($apply(key, b));
const $flip_args = (f, a, b) => f(b)(a);
const $slice_cmp = (f, a, b) => $compared($octets(a), $octets(b));
const $eq_by_cmp = (f, a, b) => f(a)(b) === 0;

// ---- texts

const $codes = text => text;
const $decimal = number => String(number);
const $bytes_eq = (a, b) => $octets(a) === $octets(b);
const $digits_value = (base, digits) => (base === 10 ? $number($octets(digits)) : parseInt($octets(digits), base));
const $isPlain = text => /^[\x00-\x7f]*$/.test(text);
const $encoded = text => ($isPlain(text) ? text : unescape(encodeURIComponent(text)));
const $decoded = octets => ($isPlain(octets) ? octets : decodeURIComponent(escape(octets)));

// ---- maps

const $empty = new $Map(new Map());
const $key = key => (typeof key === 'string' || typeof key[0] === 'number' ? $octets(key) : `${$octets(key[0])}\0${$octets(key[1])}`);
const $place = text => (text.includes('\0') ? text.split('\0') : text);

function $get(map, key) {
  const value = map.entries.get($key(key));
  return value === undefined ? $none : $some(value);
}

const $insert = (map, key, value) => map.changed([[$key(key), $octets(value)]]);
const $contains_key = (map, key) => map.entries.has($key(key));
const $entries = map => map.sorted().map(([key, value]) => [$place(key), value]);
const $retain_keys = (map, f) => new $Map(new Map([...map.entries].filter(([key]) => $apply(f, $place(key)))));
const $remove = (map, key) => map.changed([[$key(key), undefined]]);

// ---- values that are equal

function $same(a, b) {
  if (a === b) return true;
  if (typeof a === 'string' || typeof b === 'string') return a.length === b.length && Array.isArray($items(a)) && $octets(a) === $octets(b);
  if (typeof a !== 'object' || typeof b !== 'object' || a === null || b === null) return false;
  if (a instanceof $Map) return b instanceof $Map && $sameEntries(a.sorted(), b.sorted());
  if (a instanceof $Long || b instanceof $Long) return $same($items(a), $items(b));
  const names = Object.keys(a);
  return names.length === Object.keys(b).length && names.every(name => name in b && $same(a[name], b[name]));
}

const $sameEntries = (a, b) => a.length === b.length && a.every(([key, value], place) => key === b[place][0] && value === b[place][1]);

// ---- values that are kept, and rows that are watched

const $caches = [];

// A function of at most three arguments that keeps its last values. A search among a few costs less than maps.
function $keptFew(most, f) {
  let values = [];
  $caches.push(() => { values = []; });
  return (a, b, c) => {
    for (let place = values.length - 1; place >= 0; place--) {
      const it = values[place];
      if (it.a === a && it.b === b && it.c === c) return it.value;
    }
    const value = f(a, b, c);
    if (values.length === most) values.shift();
    values.push({a, b, c, value});
    return value;
  };
}

const $FEW = 8;

// A function that keeps this number of values by the identity of its arguments.
function $kept(most, f) {
  if (most <= $FEW && f.length <= 3) return $keptFew(most, f);
  let values = new Map(), count = 0;
  $caches.push(() => { [values, count] = [new Map(), 0]; });
  const room = () => { if (++count > most) [values, count] = [new Map(), 1]; };
  if (f.length === 1) {
    return argument => {
      let value = values.get(argument);
      if (value === undefined) {
        value = f(argument);
        room();
        values.set(argument, value);
      }
      return value;
    };
  }
  return (...args) => {
    const last = args.length - 1;
    let at = values;
    for (let place = 0; place < last && at !== undefined; place++) at = at.get(args[place]);
    const known = at === undefined ? undefined : at.get(args[last]);
    if (known !== undefined) return known;
    const value = f(...args);
    room();
    at = values;
    for (let place = 0; place < last; place++) {
      let next = at.get(args[place]);
      if (next === undefined) at.set(args[place], next = new Map());
      at = next;
    }
    at.set(args[last], value);
    return value;
  };
}

const $forget = () => $caches.forEach(empty => empty());

// A definition without arguments: its value is computed at its first use.
function $lazy(f) {
  let value;
  return () => (value === undefined ? (value = f()) : value);
}

// Why rows did nothing with their input, or nothing more: {row, how, test, holds}.
const $drops = [];
const $note = (row, how, [test, holds]) => { $drops.push({row, how, test, holds}); };
const $isNumber = value => typeof value === 'number' || typeof value === 'bigint';
const $with_numbers = (text, ...values) => (values.length && values.every($isNumber) ? `${text} (${values[0]} and ${values[1]})` : text);

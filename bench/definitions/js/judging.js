// What the definitions call safe, asked of computed worlds, as judging.py does it in Python.
'use strict';

class Judge {
  constructor(play) {
    this.d = play.definitions;
    this.world = play.world;
    this.n = play.n;
    this.writes = play.writes;
    this.log = this.world.log;
    this.stores = Array.from({length: this.n}, (_, rank) => this.world.store(rank));
    this.lasts = this.stores.map(store => this.d.lastOf(store));
    this.acknowledged = $items(this.world.acknowledged);
    this.replies = $items(this.world.replied);
    this.askings = $items(this.world.asked);
  }

  // The parts of Safe that fail, each with a number.
  faults() {
    return [...this.agree(), ...this.asked(), ...this.kept(), ...this.replied(), ...this.held(), ...this.oneActive()];
  }

  entry(version) { return $octets(this.d.entry(this.log, version)); }

  agree() {
    return this.stores.flatMap((store, rank) => (!this.d.isMarked(store) && !this.agrees(store, this.lasts[rank]) ? [['agree', rank]] : []));
  }

  // Whether a store is what the log leaves, up to its last version.
  agrees(store, last) {
    if (last > this.log.length || !$same(this.d.shared(store), this.d.fold(this.log, last))) return false;
    const first = Math.max(1, mon_tx__Map__number_in($get(store, ['paxos', 'first_committed'])));
    for (let version = first; version <= last; version++) if (store.entries.get(`paxos\0${version}`) !== this.entry(version)) return false;
    return true;
  }

  // The commands that clients asked: [command, the monitor that was asked, its incremental].
  commands() {
    const found = new Map();
    for (const {rank, request} of this.askings) {
      const command = this.d.commandOf(request);
      if (command.args.length === 0) continue;
      const made = command.args[0], key = [made.name, made.name === 'Log' ? rank : 0, ...made.args.map($octets)].join('\0');
      found.set(key, [made, rank, $octets(this.d.incrementalOf(rank, made))]);
    }
    return [...found.values()];
  }

  asked() {
    const bad = [], commands = this.commands();
    for (let place = 0; place < this.log.length; place++) {
      const encoded = this.entry(place + 1), isIn = ([, , incremental]) => encoded.includes(incremental);
      const tried = [...commands.filter(isIn), ...commands.filter(it => !isIn(it))];
      if (!tried.some(([command, rank]) => this.encodedValue(place, command, rank) === encoded)) bad.push(['asked', place]);
    }
    return bad;
  }

  // The encoded value of a command that a monitor is asked when it has this many entries of the log, or undefined if the command is refused.
  encodedValue(count, command, rank) {
    const log = $items(this.log).slice(0, count), key = [count, rank, command.name, ...command.args.map($octets), ...log].join('\0');
    if (!VALUES.has(key)) {
      if (VALUES.size >= MOST_VALUES) VALUES.clear();
      const value = this.d.value(this.d.viewAt(log, count), command, rank);
      VALUES.set(key, value.name === 'Ok' ? mon_tx__Text__text(value.args[0]) : undefined);
    }
    return VALUES.get(key);
  }

  putIn(service, version) { return $items(this.d.putIn(service, this.d.opsIn(this.entry(version)))).map($octets); }

  kept() {
    const bad = [], seen = new Set();
    for (const {what} of this.acknowledged) {
      const isIn = what.version >= 1 && what.version <= this.log.length && this.putIn(what.service, what.version).includes($octets(what.incremental));
      if (seen.has(what.version) || !isIn || this.stores.some((_, rank) => this.lacks(rank, what))) bad.push(['kept', what.version]);
      seen.add(what.version);
    }
    return bad;
  }

  // Whether a monitor is an active leader after an acknowledgement, and lacks its version.
  lacks(rank, acknowledged) {
    const [state] = this.world.state(rank).args;
    return Boolean(state) && this.d.isActive(state.phase) && acknowledged.pn <= state.leader.pn && this.lasts[rank] < acknowledged.version;
  }

  replied() {
    const forms = {Done: it => this.done(it), Shown: it => this.shown(it), Since: it => this.since(it)};
    return this.replies.flatMap(it => (forms[it.reply.name] ? forms[it.reply.name](it) : []));
  }

  done(it) {
    const version = it.reply.args[0];
    const asked = this.askings.filter(one => one.rank === it.rank && $same(one.session, it.session)).map(one => this.d.madeBy(one.rank, one.request));
    const answers = this.acknowledged.filter(({event, what}) => what.version === version && event <= it.event)
      .some(({what}) => asked.some(made => $same(made, $some([what.service, what.incremental]))));
    return answers ? [] : [['answered', version]];
  }

  shown(it) {
    const [service, paxos, version, shown] = it.reply.args;
    const isSo = paxos === it.last && version === this.d.incrementals(service, this.log, paxos).length
      && $same(shown, this.d.mapOfLog(service, this.log, paxos));
    return [...(isSo ? [] : [['shown', it.event]]), ...this.fence(it)];
  }

  since(it) {
    const [service, at, changes, more] = it.reply.args, others = $items(this.d.incrementals(service, this.log, it.last)).slice(Number(at));
    const isSo = $items(changes).every((text, place) => place < others.length && $octets(text) === $octets(others[place]))
      && more === (changes.length < others.length);
    return [...(isSo ? [] : [['since', it.event]]), ...this.fence(it)];
  }

  fence(it) {
    return this.acknowledged.filter(({event, what}) => event < it.event && what.epoch === it.epoch && it.last < what.version).map(() => ['fence', it.event]);
  }

  held() {
    return this.stores.flatMap((store, rank) => {
      const transactions = this.world.transactions(rank), isHeld = $same(this.d.afterTransactions(transactions, new $Map(new Map())), store);
      const isWhole = transactions.length === this.writes[rank].length && $same($items(transactions), this.writes[rank]);
      return [...(isHeld ? [] : [['held', rank]]), ...(isWhole ? [] : [['whole', rank]])];
    });
  }

  oneActive() {
    const leaders = new Map(), bad = [];
    for (const [epoch, rank] of $items(this.world.active)) {
      if (!leaders.has(epoch)) leaders.set(epoch, rank);
      if (leaders.get(epoch) !== rank) bad.push(['one active', epoch]);
    }
    return bad;
  }
}

// The encoded values of commands after logs. They are forgotten when other definitions are loaded.
const VALUES = new Map(), MOST_VALUES = 20000;

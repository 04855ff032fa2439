'use strict';
/* A run to step through. `Run` has its places and state and knows nothing of the page; `View` shows it.

A place is a part of a turn: the user's step, each statement of a user in C0 since its last trap, the call of the kernel, each statement of the kernel, and
what it answered. Place -1 is before the first turn. The state of a place is what stands when it is done. */

const PC = 32, HI = 33, LO = 34, PAGES = 35;
const STEP = 0, CALLED = 1, STATEMENT = 2, ANSWERED = 3, OWN = 4;
// a flag of a step: the source of its user tells what it does, in statements that stand at its next trap
const BY_SOURCE = 8;
// slots of what is no register, word or value: who is next, a word more on the console, an object more
const CURRENT = -1, CONSOLE = -2, OBJECT = -3;
const NOTHING = [];
const INT = 0, BOOL = 1, POINTER = 2, ARRAY = 3;
// so many parts of a function's array or struct are written out
const MOST_PARTS = 12;

const signed = word => word | 0;
const hex = word => (word >>> 0).toString(16).padStart(8, '0');

/** The letters of a word's bytes, the highest first, without those above its highest byte that isn't 0; empty where one of them is no letter or sign. */
function letters(word) {
  const bytes = [24, 16, 8, 0].map(shift => word >>> shift & 255);
  while (bytes.length && bytes[0] === 0) bytes.shift();
  return bytes.every(byte => byte >= 32 && byte < 127) ? String.fromCharCode(...bytes) : '';
}

class Run {
  constructor(data) {
    this.data = data;
    this.texts = data.texts;
    this.slots = data.slots;
    this.first = data.first;
    this.last = data.first + data.turns.length - 1;
    this.lines = data.users.map(user => user.lines);
    this.start();
    this.lay();
    this.place = this.turns.length - 1;
  }

  /** The state before the first turn. */
  start() {
    const start = this.data.start;
    this.users = start.users.map(user => {
      const memory = new Map();
      for (const [first, words] of user.mem) words.forEach((word, at) => word && memory.set(first + 4 * at, word));
      return { r: [...user.r, user.pc, user.hi, user.lo, user.pages], memory };
    });
    this.globals = start.globals.slice();
    this.heap = start.heap.slice();
    this.objects = start.objects.slice();
    this.console = start.console.slice();
    this.current = start.current;
  }

  /** Lays the places out, and goes through them once, so that each change has the value before it. */
  lay() {
    Object.assign(this, { turns: [], kinds: [], events: [], files: [], atLines: [], begins: [0], slotOf: [], to: [], from: [], firstOf: [], lastOf: [], lastOwn: [] });
    this.data.turns.forEach((row, at) => {
      this.firstOf.push(this.turns.length);
      this.layTurn(this.first + at, row);
      this.lastOf.push(this.turns.length - 1);
    });
  }

  layTurn(turn, row) {
    const [user, , changes, , call] = row;
    if (user) {
      const pc = this.users[user - 1].r[PC], slot = this.slotOfPc(user);
      // a step goes on to the following word where its row doesn't say another
      let goesOn = true;
      for (let at = 0; at < changes.length; at += 2) if (changes[at] === slot) goesOn = false;
      if (goesOn) this.alter(slot, pc + 4 >>> 0);
      const file = this.origin(user, turn);
      this.add(turn, STEP, { row, pc }, file, this.lineOf(file, pc), changes);
    }
    if (!call) return;
    for (const event of call[5]) this.add(turn, OWN, event, ...this.statement(event).slice(0, 2), NOTHING);
    if (call[5].length) this.lastOwn[user] = turn;
    this.add(turn, CALLED, { row, call }, 0, 0, []);
    for (const event of call[6]) this.add(turn, STATEMENT, event, 0, this.statement(event)[1], this.changesOf(event));
    const lastLine = call[6].length ? this.statement(call[6][call[6].length - 1])[1] : 0;
    this.add(turn, ANSWERED, { row, call }, 0, lastLine, call[4] >= 0 ? [CURRENT, call[4]] : NOTHING);
  }

  add(turn, kind, event, file, line, changes) {
    this.turns.push(turn);
    this.kinds.push(kind);
    this.events.push(event);
    this.files.push(file);
    this.atLines.push(line);
    for (let at = 0; at < changes.length; at += 2) this.alter(changes[at], changes[at + 1]);
    this.begins.push(this.slotOf.length);
  }

  /** Changes the state for the first time, and keeps what stood there. */
  alter(slot, value) {
    this.slotOf.push(slot);
    this.to.push(value);
    this.from.push(this.change(slot, value));
  }

  slotOfPc(user) {
    this.pcSlots = this.pcSlots || [];
    if (this.pcSlots[user] === undefined) {
      const found = this.slots.findIndex(([kind, of, at]) => kind === 'r' && of === user && at === PC);
      this.pcSlots[user] = found >= 0 ? found : this.slots.push(['r', user, PC, 0, 0]) - 1;
    }
    return this.pcSlots[user];
  }

  statement(event) {
    return this.data.statements[event[1]];
  }

  /** What an event of the kernel changes, as slots and values in turn. */
  changesOf(event) {
    if (event[0] === 1) return event[4] ? [event[2], event[3], OBJECT, event[4]] : [event[2], event[3]];
    if (event[0] === 5) return event[4] ? [OBJECT, event[4]] : NOTHING;
    if (event[0] !== 2) return NOTHING;
    const changes = event[6].slice();
    if (this.texts[event[2]] === 'con_put' && this.texts[event[4][0]] === 'true') changes.push(CONSOLE, event[3][0] >>> 0);
    return event[7] ? changes.concat(this.changesOf(event[7])) : changes;
  }

  /** Changes the state, and gives what stood there. */
  change(slot, value) {
    if (slot === CURRENT) { const old = this.current; this.current = value; return old; }
    if (slot === CONSOLE) { this.console.push(value); return null; }
    if (slot === OBJECT) { this.objects.push(value); return null; }
    const place = this.slots[slot], kind = place[0], user = place[1], at = place[2];
    if (kind === 'm') {
      const memory = this.users[user - 1].memory, old = memory.get(at) || 0;
      if (value) memory.set(at, value); else memory.delete(at);
      return old;
    }
    const words = kind === 'r' ? this.users[user - 1].r : kind === 'g' ? this.globals : this.heap, old = words[at] || 0;
    words[at] = value;
    return old;
  }

  undo(slot, value) {
    if (slot === CONSOLE) this.console.pop();
    else if (slot === OBJECT) this.objects.pop();
    else this.change(slot, value);
  }

  /** Goes to a place. */
  go(place) {
    const to = Math.max(-1, Math.min(place, this.turns.length - 1));
    while (this.place > to) {
      for (let at = this.begins[this.place + 1] - 1; at >= this.begins[this.place]; at--) this.undo(this.slotOf[at], this.from[at]);
      this.place--;
    }
    while (this.place < to) {
      this.place++;
      for (let at = this.begins[this.place]; at < this.begins[this.place + 1]; at++) this.change(this.slotOf[at], this.to[at]);
    }
  }

  // ---- where to go
  /** The turn that is shown; the one before the first at place -1. */
  get turn() {
    return this.place < 0 ? this.first - 1 : this.turns[this.place];
  }

  /** The place at which a turn is complete. */
  complete(turn) {
    const at = Math.max(this.first - 1, Math.min(turn, this.last)) - this.first;
    return at < 0 ? -1 : this.lastOf[at];
  }

  get isComplete() {
    return this.place === this.complete(this.turn);
  }

  /** Which part of its turn a place is, from 0. */
  get part() {
    return this.place < 0 ? 0 : this.place - this.firstOf[this.turn - this.first];
  }

  placeOf(turn, part) {
    if (turn < this.first || turn > this.last) return this.complete(turn);
    return Math.min(this.firstOf[turn - this.first] + part, this.lastOf[turn - this.first]);
  }

  turnOn() { return this.isComplete ? this.complete(this.turn + 1) : this.complete(this.turn); }

  turnBack() { return this.complete(this.turn - 1); }

  /** The next place on or back for which something holds; the place itself where there is none. */
  find(direction, holds) {
    for (let place = this.place + direction; place >= 0 && place < this.turns.length; place += direction) if (holds(place)) return place;
    return this.place;
  }

  isStatement(place) { return this.kinds[place] === STATEMENT || this.kinds[place] === OWN; }
  statementOn() { return this.find(1, place => this.isStatement(place)); }
  statementBack() { return this.find(-1, place => this.isStatement(place)); }
  dispatchOn() { return this.find(1, place => this.kinds[place] === CALLED); }
  dispatchBack() { return this.find(-1, place => this.kinds[place] === CALLED); }

  /** The next place of lines of sources, given as `FILE:LINE` with the kernel as file 0. */
  toStop(direction, stops) {
    return this.find(direction, place => stops.has(this.files[place] + ':' + this.atLines[place]) && (this.isStatement(place) || this.kinds[place] === STEP && !this.isTold(place)));
  }

  /** Whether a step of a user in C0 is told by statements, which stand at a trap behind it. */
  isTold(place) {
    const row = this.events[place].row;
    return row[1] & BY_SOURCE && this.turns[place] <= this.lastOwn[row[0]];
  }

  /** The next place at which what is chosen becomes another. */
  toChange(direction, choice) {
    const fits = this.fitting(choice);
    return this.find(direction, place => {
      for (let at = this.begins[place]; at < this.begins[place + 1]; at++) if (fits(this.slotOf[at]) && this.from[at] !== this.to[at]) return true;
      return false;
    });
  }

  /** Whether a slot is a part of a choice: `r:USER:NUMBER`, `m:USER:ADDRESS`, `g:NAME`, `h:OBJECT` or `con`. */
  fitting(choice) {
    const [kind, one, two] = choice.split(':');
    if (kind === 'con') return slot => slot === CONSOLE;
    if (kind === 'r' || kind === 'm') return slot => slot >= 0 && this.slots[slot][0] === kind && this.slots[slot][1] === +one && this.slots[slot][2] === +two;
    const [type, first] = this.typed(kind, one);
    const size = type === undefined ? 0 : this.words(type);
    return slot => slot >= 0 && this.slots[slot][0] === kind && this.slots[slot][2] >= first && this.slots[slot][2] < first + size;
  }

  /** The type and the first word of a global by its name, or of an object by its number. */
  typed(kind, name) {
    if (kind === 'g') {
      const found = this.data.globals.find(([text]) => this.texts[text] === name);
      return found ? [found[1], found[2]] : [];
    }
    const object = this.allObjects()[name - 1];
    return object ? [object[1], object[0]] : [];
  }

  /** The objects of the whole window, of which those here are the first. */
  allObjects() {
    if (!this.everyObject) {
      this.everyObject = this.data.start.objects.slice();
      this.slotOf.forEach((slot, at) => slot === OBJECT && this.everyObject.push(this.to[at]));
    }
    return this.everyObject;
  }

  // ---- lines
  /** The user whose source says what a user does in a turn: itself, or the one whose program a kernel has copied to it. */
  origin(user, turn) {
    let found = user;
    for (const [from, number] of this.data.origins[user] || []) if (from <= turn) found = number;
    return found;
  }

  lineOf(file, pc) {
    const [start, lines] = this.lines[file - 1];
    return pc % 4 === 0 && pc >= start ? lines[(pc - start) / 4] || 0 : 0;
  }

  source(file) {
    return file ? this.data.users[file - 1] : this.data.kernel;
  }

  lineText(file, line) {
    this.split = this.split || {};
    this.split[file] = this.split[file] || this.source(file).text.split('\n');
    return (this.split[file][line - 1] || '').trim();
  }

  // ---- values
  words(type) {
    const t = this.data.types[type];
    if (t[0] <= POINTER) return 1;
    return t[0] === ARRAY ? t[2] * t[3] : t[2].reduce((sum, field) => Math.max(sum, field[2] + this.words(field[1])), 0);
  }

  typeName(type) {
    const t = this.data.types[type];
    return t[0] === ARRAY ? this.typeName(t[1]) + '[' + t[2] + ']' : this.texts[t[1]];
  }

  scalar(kind, value) {
    return kind === INT ? String(value || 0) : kind === BOOL ? (value ? 'true' : 'false') : value ? this.texts[value] : 'null';
  }

  /** The value of a type that stands at a word of globals or heap, as C0 values are written here. */
  value(type, words, at, most = 64) {
    const t = this.data.types[type];
    if (t[0] <= POINTER) return this.scalar(t[0], words[at]);
    if (t[0] !== ARRAY) return '{' + t[2].map(([name, inner, before]) => this.texts[name] + ': ' + this.value(inner, words, at + before, most)).join(', ') + '}';
    const shown = [];
    for (let number = 0; number < Math.min(t[2], most); number++) shown.push(this.value(t[1], words, at + number * t[3], most));
    return '{' + shown.join(', ') + (t[2] > most ? ', ..' : '') + '}';
  }

  slotName(slot) {
    const [kind, user, at, name] = this.slots[slot];
    if (kind === 'r') return at === PC ? 'pc' : at === HI ? 'hi' : at === LO ? 'lo' : at === PAGES ? 'pages' : 'r' + at;
    return kind === 'm' ? 'mem[' + at + ']' : this.texts[name];
  }

  slotValue(slot, value) {
    const [kind, , at, , scalar] = this.slots[slot];
    if (kind === 'r') return at === PC ? hex(value) : String(at === PAGES ? value : signed(value));
    return kind === 'm' ? String(signed(value)) : this.scalar(scalar, value);
  }

  /** Of each slot that this turn has changed so far: the value before the turn. */
  changedHere() {
    const found = new Map();
    if (this.place < 0) return found;
    const first = this.begins[this.firstOf[this.turn - this.first]];
    for (let at = first; at < this.begins[this.place + 1]; at++) if (!found.has(this.slotOf[at]) && this.slotOf[at] >= 0) found.set(this.slotOf[at], this.from[at]);
    return found;
  }

  // ---- rows
  said(value) {
    return Array.isArray(value) ? this.texts[value[0]] : String(value);
  }

  /** What a user's step did, in words. */
  stepText(place) {
    const { row, pc } = this.events[place], [user, flags, , text] = row;
    const line = this.atLines[place], file = this.files[place], source = this.source(file);
    const where = line ? source.name + ':' + line : source.name + ' ' + hex(pc);
    const what = flags & 2 ? ['taken'] : flags & 4 ? ['not taken'] : [];
    for (let at = this.begins[place]; at < this.begins[place + 1]; at++) {
      const slot = this.slotOf[at];
      if (this.slots[slot][2] === PC && this.slots[slot][0] === 'r') continue;
      what.push(this.slotName(slot) + ' = ' + this.slotValue(slot, this.to[at]) + ' (was ' + this.slotValue(slot, this.from[at]) + ')');
    }
    if (flags & 1) what.push('traps');
    return 'user ' + user + '  ' + hex(pc) + '  ' + where + '  ' + [line ? this.lineText(file, line) : '', this.texts[text]].filter(Boolean).join('  ') + (what.length ? '  ' + what.join(', ') : '');
  }

  /** What an event of C0 did, in words; `old` is the value before a store, where it is known. */
  eventText(event, old) {
    const [file, line, text] = this.statement(event), where = (line ? this.source(file).name + ':' + line : this.source(file).name) + '  ' + this.texts[text];
    switch (event[0]) {
      case 0: return where + '  ' + (event[2] ? 'true' : 'false');
      case 1: return where + '  ' + this.slotName(event[2]) + ' = ' + this.slotValue(event[2], event[3]) + (old === undefined ? '' : ' (was ' + this.slotValue(event[2], old) + ')');
      case 2: return where + '  ' + this.primitiveText(event) + (event[7] ? '; ' + this.storeText(event[7], old) : '');
      case 3: return where + '(' + event[2].map(([name, value]) => this.texts[name] + ' = ' + this.said(value)).join(', ') + ')';
      case 4: return where + '  ' + this.texts[event[2]] + ' is ' + this.said(event[3]);
      case 5: case 9: return where + '  ' + this.storeText(event);
      default: return where + '  ' + this.texts[event[2]];
    }
  }

  storeText(event, old) {
    if (event[0] === 5 || event[0] === 9) return this.texts[event[2]] + ' = ' + this.said(event[3]);
    return this.slotName(event[2]) + ' = ' + this.slotValue(event[2], event[3]) + (old === undefined ? '' : ' (was ' + this.slotValue(event[2], old) + ')');
  }

  primitiveText(event) {
    return this.texts[event[2]] + '(' + event[3].join(', ') + ') is ' + this.said(event[4]) + (event[5] ? ': ' + this.texts[event[5]] : '');
  }

  /** The rows of a turn: of each its text, how deep it stands, and its place. */
  rowsOf(turn) {
    if (turn < this.first || turn > this.last) return [];
    const rows = [];
    let depth = Math.max(1, this.before(turn).length);
    for (let place = this.firstOf[turn - this.first]; place <= this.lastOf[turn - this.first]; place++) {
      const event = this.events[place];
      if (this.kinds[place] === STEP) rows.push({ text: this.stepText(place), depth: 0, place });
      else if (this.kinds[place] === CALLED) { rows.push({ text: this.calledText(event.call), depth: 0, place }); depth = 1; }
      else if (this.kinds[place] === ANSWERED) rows.push({ text: this.answeredText(event.call), depth: 0, place });
      else {
        rows.push({ text: this.eventText(event, this.oldOf(place)), depth, place });
        depth = Math.max(1, depth + (event[0] === 3 ? 1 : event[0] === 4 ? -1 : 0));
      }
    }
    return rows;
  }

  /** What stood where the kernel's statement stores. */
  oldOf(place) {
    const event = this.events[place], store = event[0] === 2 ? event[7] : event;
    if (!store || store[0] !== 1) return undefined;
    for (let at = this.begins[place + 1] - 1; at >= this.begins[place]; at--) if (this.slotOf[at] === store[2]) return this.from[at];
    return undefined;
  }

  /** The functions of a user in C0 that ran at its trap before the one of this turn, each with its variables. */
  before(turn) {
    const call = this.data.turns[turn - this.first][4];
    return call && call[8] || NOTHING;
  }

  calledText(call) {
    return 'dispatch(' + call[0] + ', ' + signed(call[1]) + ', ' + call[2] + ')  ' + this.texts[call[3]];
  }

  answeredText(call) {
    return call[4] < 0 ? 'fault ' + this.texts[call[7]] : call[4] ? 'next is user ' + call[4] : 'next is 0: the run halts';
  }

  /** The functions of the kernel, or of a user in C0, that run at this place, each with its variables. */
  calls() {
    if (this.place < 0 || !this.isStatement(this.place)) return [];
    const kind = this.kinds[this.place], by = this.files[this.place], frames = [];
    const enter = (name, held) => frames.push({ name, held: new Map(held.map(([one, value]) => [this.texts[one], this.said(value)])) });
    if (kind === OWN) for (const frame of this.before(this.turn)) enter(...frame);
    for (let place = this.firstOf[this.turn - this.first]; place <= this.place; place++) {
      if (this.kinds[place] !== kind) continue;
      const event = this.events[place], store = event[0] === 2 ? event[7] : event;
      if (event[0] === 3) enter(this.statement(event)[2], event[2]);
      else if (event[0] === 4 && place < this.place) frames.pop();
      else if (store && store[0] === 5 && frames.length) frames[frames.length - 1].held.set(this.texts[store[2]], this.said(store[3]));
    }
    return frames.map(({ name, held }) => ({ name: this.texts[name], variables: this.variables(by, name, held) }));
  }

  /** The variables of a function, with their values: 0 where nothing else is held. */
  variables(by, name, held) {
    return new Map(this.data.variables[by + ':' + name].map(([one, type]) => [this.texts[one], this.heldValue(type, this.texts[one], held)]));
  }

  /** The value of a variable or a part of one, of whose scalars some are held by their names. */
  heldValue(type, name, held) {
    const t = this.data.types[type];
    if (t[0] <= POINTER) return held.has(name) ? held.get(name) : this.scalar(t[0], 0);
    const count = t[0] === ARRAY ? t[2] : t[2].length, shown = [];
    for (let at = 0; at < Math.min(count, MOST_PARTS); at++) {
      if (t[0] === ARRAY) shown.push(this.heldValue(t[1], name + '[' + at + ']', held));
      else shown.push(this.texts[t[2][at][0]] + ': ' + this.heldValue(t[2][at][1], name + '.' + this.texts[t[2][at][0]], held));
    }
    return '{' + shown.join(', ') + (count > MOST_PARTS ? ', ..' : '') + '}';
  }

  /** The lines of a source that ran in this turn up to here. */
  linesHere(file) {
    const found = new Set();
    if (this.place >= 0) for (let place = this.firstOf[this.turn - this.first]; place <= this.place; place++) if (this.files[place] === file && this.atLines[place]) found.add(this.atLines[place]);
    return found;
  }

  /** The rows of a user's journal up to this turn, as [turn, row]; how many steps it made since the last one. */
  journal(user) {
    const [pending, before, count] = this.data.before[user], rows = before.map(row => [this.first - 1, row]);
    let at = this.first, steps = pending;
    for (const [turn, row] of this.data.journals[user]) if (turn <= this.turn) { rows.push([turn, row]); at = turn + 1; steps = 0; }
    for (let turn = at; turn <= this.turn; turn++) {
      const row = this.data.turns[turn - this.first];
      if (row[0] === user && !(row[1] & 1)) steps++;
    }
    return { rows, steps, left: count - before.length };
  }
}

/** What the address of the page says. */
function ofHash(hash) {
  const said = {};
  for (const part of hash.replace(/^#/, '').split('&')) {
    const [name, value] = part.split('=');
    if (value !== undefined) said[name] = decodeURIComponent(value);
  }
  return said;
}

function toHash(said) {
  return '#' + Object.entries(said).filter(([, value]) => value !== '' && value !== undefined).map(([name, value]) => name + '=' + encodeURIComponent(value)).join('&');
}

class View {
  constructor(run) {
    this.run = run;
    this.stops = new Set();
    this.choice = '';
    this.user = 0;      // 0 follows who runs
    this.address = null;
    this.shownFile = -1;
    this.get = name => document.getElementById(name);
    this.lay();
    this.bind();
    this.readHash();
  }

  // ---- what stays
  lay() {
    const data = this.run.data, get = this.get, run = this.run;
    get('title').textContent = data.title;
    const window_ = run.first > 0 || run.last < data.total - 1 ? 'turns ' + run.first + ' to ' + run.last + ' of ' + data.total : data.total + (data.total === 1 ? ' turn' : ' turns');
    get('ending').textContent = window_ + '; ' + data.end;
    get('kernelname').textContent = data.kernel.name;
    this.layLines(get('kernel'), 0);
    get('user').append(this.element('option', { value: 0 }, 'who runs'), ...data.users.map((user, at) => this.element('option', { value: at + 1 }, 'user ' + (at + 1) + ' (' + user.name + ')')));
    const slider = get('slider');
    slider.min = run.first - 1;
    slider.max = run.last;
    this.svg = document.querySelector('#picture > svg');
    if (this.svg) this.layPicture();
    if (!data.users.length) get('usersource').hidden = true;
  }

  layPicture() {
    const [, , width, height] = this.svg.getAttribute('viewBox').split(' ').map(Number);
    this.cursor = document.createElementNS('http://www.w3.org/2000/svg', 'line');
    this.cursor.setAttribute('class', 'cursor');
    this.cursor.setAttribute('y1', 58);
    this.cursor.setAttribute('y2', Math.min(height, 66 + 30 * (this.run.users.length + 1) + 4));
    this.svg.append(this.cursor);
    this.pictureWidth = width;
  }

  element(kind, given, ...inner) {
    const made = document.createElement(kind);
    for (const [name, value] of Object.entries(given || {})) if (value !== undefined && value !== false) made.setAttribute(name, value);
    made.append(...inner);
    return made;
  }

  layLines(list, file) {
    list.replaceChildren(...this.run.source(file).text.replace(/\n$/, '').split('\n').map((text, at) => this.element(
      'li', { role: 'option', id: list.id + (at + 1), 'data-line': at + 1, 'aria-selected': String(this.stops.has(file + ':' + (at + 1))) }, text || ' ')));
    list.dataset.file = file;
  }

  bind() {
    const get = this.get, run = this.run;
    this.doing = { turnOn: () => run.turnOn(), turnBack: () => run.turnBack(), statementOn: () => run.statementOn(), statementBack: () => run.statementBack(),
      dispatchOn: () => run.dispatchOn(), dispatchBack: () => run.dispatchBack(), changeOn: () => this.change(1), changeBack: () => this.change(-1),
      stopOn: () => run.toStop(1, this.stops), stopBack: () => run.toStop(-1, this.stops), start: () => -1, end: () => run.turns.length - 1 };
    document.querySelectorAll('[data-do]').forEach(button => button.addEventListener('click', () => this.do(button.dataset.do)));
    document.addEventListener('keydown', event => this.key(event));
    get('goto').addEventListener('submit', event => { event.preventDefault(); this.toTurn(get('number').value); });
    get('slider').addEventListener('input', () => this.to(run.complete(+get('slider').value)));
    get('user').addEventListener('change', () => { this.user = +get('user').value; this.show(); });
    get('address').addEventListener('submit', event => { event.preventDefault(); this.toAddress(get('from').value); });
    if (this.svg) this.svg.addEventListener('click', event => this.pictured(event));
    for (const name of ['kernel', 'usersource']) this.bindLines(get(name));
    document.addEventListener('click', event => {
      const cell = event.target.closest && event.target.closest('[data-choice]');
      if (cell) { this.choice = this.choice === cell.dataset.choice ? '' : cell.dataset.choice; this.show(); }
    });
    window.addEventListener('hashchange', () => this.readHash());
  }

  bindLines(list) {
    list.addEventListener('click', event => { const line = event.target.closest('li'); if (line) { this.activate(list, line); this.stop(list, line); } });
    list.addEventListener('keydown', event => {
      const active = list.querySelector('.active') || list.querySelector('.now') || list.firstElementChild;
      const to = { ArrowDown: active.nextElementSibling, ArrowUp: active.previousElementSibling }[event.key];
      if (to) this.activate(list, to);
      else if (event.key === 'Enter' || event.key === ' ') this.stop(list, active);
      else return;
      event.preventDefault();
      event.stopPropagation();
    });
  }

  activate(list, line) {
    list.querySelectorAll('.active').forEach(other => other.classList.remove('active'));
    line.classList.add('active');
    list.setAttribute('aria-activedescendant', line.id);
    this.into(list, line);
  }

  /** Chooses a line to stop at, or not to any more. */
  stop(list, line) {
    const name = list.dataset.file + ':' + line.dataset.line;
    if (!this.stops.delete(name)) this.stops.add(name);
    line.setAttribute('aria-selected', String(this.stops.has(name)));
    this.show();
  }

  key(event) {
    if (event.ctrlKey || event.altKey || event.metaKey || /^(INPUT|SELECT|TEXTAREA)$/.test(event.target.tagName)) return;
    const names = { ArrowRight: 'turnOn', ArrowLeft: 'turnBack', s: 'statementOn', S: 'statementBack', d: 'dispatchOn', D: 'dispatchBack', c: 'changeOn', C: 'changeBack',
      l: 'stopOn', L: 'stopBack', Home: 'start', End: 'end' };
    if (event.key === 'g') { this.get('number').focus(); this.get('number').select(); event.preventDefault(); }
    if (!names[event.key]) return;
    event.preventDefault();
    this.do(names[event.key]);
  }

  do(name) {
    const before = this.run.place, to = this.doing[name]();
    this.to(to);
    if (to === before && to !== undefined) this.say(this.nothing(name));
  }

  /** Why a step went nowhere. */
  nothing(name) {
    if (name.startsWith('change') && !this.choice) return 'Nothing is chosen: click a register, a word of memory, a global or the console first.';
    if (name.startsWith('stop') && !this.stops.size) return 'No line is chosen: click one in a source first.';
    return 'There is none ' + (name.endsWith('On') || name === 'end' ? 'behind' : 'before') + ' this place in these turns.';
  }

  change(direction) {
    return this.choice ? this.run.toChange(direction, this.choice) : this.run.place;
  }

  toTurn(text) {
    if (!/^\d+$/.test(text.trim())) return this.say("'" + text + "' is no number of a turn.");
    const turn = +text;
    this.to(this.run.complete(turn));
    if (turn < this.run.first || turn > this.run.last) this.say('This page has turns ' + this.run.first + ' to ' + this.run.last + ' alone.');
  }

  toAddress(text) {
    const word = text.trim();
    if (word !== '' && !/^(\d+|0[xX][0-9a-fA-F]+)$/.test(word)) return this.say("'" + text + "' is no address.");
    this.address = word === '' ? null : Math.floor(Number(word) / 4) * 4;
    this.show();
  }

  pictured(event) {
    const box = this.svg.getBoundingClientRect(), x = (event.clientX - box.left) * this.pictureWidth / box.width;
    const turn = this.run.first + Math.floor((x - 96) * (this.run.last + 1 - this.run.first) / 780);
    this.to(this.run.complete(turn));
  }

  to(place) {
    this.run.go(place);
    this.show();
  }

  say(text) { this.get('status').textContent = text; }

  // ---- the address of the page
  readHash() {
    const said = ofHash(location.hash), run = this.run;
    if (location.hash === this.written) return;
    this.user = Math.min(+said.user || 0, run.users.length);
    this.choice = said.choice || '';
    this.stops = new Set((said.lines || '').split(',').filter(Boolean));
    this.shownFile = -1;
    this.layLines(this.get('kernel'), 0);
    const turn = /^-?\d+$/.test(said.turn || '') ? +said.turn : run.first - 1 < 0 ? 0 : run.first;
    run.go(/^\d+$/.test(said.part || '') ? run.placeOf(turn, +said.part) : run.complete(turn));
    this.show();
  }

  writeHash() {
    const run = this.run;
    this.written = toHash({ turn: run.turn, part: run.isComplete ? '' : run.part, user: this.user || '', choice: this.choice, lines: [...this.stops].join(',') });
    history.replaceState(null, '', this.written);
  }

  // ---- what changes
  /** The user whose source and state are shown. */
  get shown() {
    if (this.user) return this.user;
    const run = this.run, row = run.place < 0 ? null : run.data.turns[run.turn - run.first];
    return (row && (row[0] || (row[4] && row[4][2]))) || run.current || (run.users.length ? 1 : 0);
  }

  show() {
    const run = this.run, get = this.get;
    this.changed = run.changedHere();
    if (document.activeElement !== get('number')) get('number').value = run.turn;
    get('slider').value = run.turn;
    get('slider').setAttribute('aria-valuetext', 'turn ' + run.turn);
    get('user').value = this.user;
    get('turnname').textContent = run.place < 0 ? 'before turn ' + run.first : 'turn ' + run.turn + (run.isComplete ? '' : ', not complete');
    this.showRows();
    this.showSources();
    this.showUser();
    this.showGlobals();
    this.showConsole();
    this.showCursor();
    this.say(this.sentence());
    this.writeHash();
    document.querySelectorAll('[data-do]').forEach(button => { if (button.dataset.do.startsWith('change')) button.title = this.choice ? 'of ' + this.choice : 'nothing is chosen'; });
  }

  sentence() {
    const run = this.run;
    if (run.place < 0) return 'Before turn ' + run.first + '.';
    const row = run.rowsOf(run.turn).find(one => one.place === run.place);
    return 'Turn ' + run.turn + ': ' + (row ? row.text : '');
  }

  showRows() {
    const run = this.run, rows = run.rowsOf(run.turn), most = 400;
    const now = Math.max(0, rows.findIndex(row => row.place === run.place)), first = rows.length > most ? Math.max(0, now - most / 2) : 0;
    const shown = rows.slice(first, first + most).map(row => {
      const text = '  '.repeat(row.depth) + row.text;
      const inner = this.element('button', {}, text);
      inner.addEventListener('click', () => this.to(row.place));
      return this.element('li', row.place === run.place ? { class: 'now', 'aria-current': 'step' } : {}, inner);
    });
    if (rows.length > most) shown.push(this.element('li', { class: 'note' }, 'rows ' + (first + 1) + ' to ' + Math.min(rows.length, first + most) + ' of ' + rows.length));
    const frames = run.calls();
    if (frames.length) shown.push(this.element('li', { class: 'note' }, 'variables: ' + frames.map(frame => frame.name + '(' + [...frame.variables].map(([name, value]) => name + ' = ' + value).join(', ') + ')').join(' · ')));
    this.get('turn').replaceChildren(...shown);
    const at = this.get('turn').querySelector('.now');
    if (at) this.into(this.get('turn').parentElement, at);
  }

  showSources() {
    const run = this.run, user = this.shown, list = this.get('usersource');
    const kernelNow = run.place >= 0 && run.files[run.place] === 0 ? run.atLines[run.place] : 0;
    this.mark(this.get('kernel'), run.linesHere(0), kernelNow, 0);
    if (!user) return;
    const file = run.origin(user, run.turn);
    if (this.shownFile !== file) { this.layLines(list, file); this.shownFile = file; }
    const ran = run.place >= 0 && run.data.turns[run.turn - run.first][0] === user, here = ran ? run.linesHere(file) : new Set();
    const isOwn = run.place >= 0 && run.kinds[run.place] === OWN && run.files[run.place] === user, did = isOwn ? run.atLines[run.place] : [...here][0] || 0;
    this.mark(list, here, did, run.lineOf(file, run.users[user - 1].r[PC]));
  }

  mark(list, ran, now, next) {
    list.querySelectorAll('.ran, .now, .next').forEach(line => { line.classList.remove('ran', 'now', 'next'); line.removeAttribute('aria-current'); line.removeAttribute('title'); });
    const line = number => list.children[number - 1];
    for (const number of ran) if (line(number)) line(number).classList.add('ran');
    if (next && line(next)) { line(next).classList.add('next'); line(next).title = 'what this user does next'; }
    if (now && line(now)) { line(now).classList.add('now'); line(now).setAttribute('aria-current', 'step'); }
    const at = line(now || next);
    if (at) this.into(list, at);
  }

  /** Scrolls a box so that a part of it is to be seen, and the page not at all. */
  into(box, part) {
    const top = part.offsetTop - box.offsetTop, view = box.clientHeight;
    const at = getComputedStyle(box).position === 'static' ? top : part.offsetTop;
    if (at < box.scrollTop + 20 || at + part.offsetHeight > box.scrollTop + view - 20) box.scrollTop = at - view / 2;
  }

  cell(choice, name, value, was, zero) {
    const given = { type: 'button', class: 'cell' + (was !== undefined ? ' changed' : '') + (zero ? ' zero' : ''), 'data-choice': choice, 'aria-pressed': String(this.choice === choice) };
    const inner = [this.element('span', { class: 'name' }, name), ' ', this.element('span', { class: 'value' }, value)];
    if (was !== undefined) inner.push(this.element('span', { class: 'was' }, ' was ' + was));
    return this.element('button', given, ...inner);
  }

  /** The value before this turn of a register or word of a user, where the turn changed it. */
  was(kind, user, at) {
    for (const [slot, old] of this.changed) {
      const [k, u, a] = this.run.slots[slot];
      if (k === kind && u === user && a === at) return this.run.slotValue(slot, old);
    }
    return undefined;
  }

  showUser() {
    const run = this.run, user = this.shown, get = this.get;
    if (!user) return;
    const flat = run.users[user - 1], cells = [];
    get('registersname').textContent = 'registers of user ' + user;
    get('memoryname').textContent = 'memory words of user ' + user + ' (' + flat.r[PAGES] + (flat.r[PAGES] === 1 ? ' page)' : ' pages)');
    get('journalname').textContent = 'journal of user ' + user;
    cells.push(this.cell('r:' + user + ':' + PC, 'pc', hex(flat.r[PC]), this.was('r', user, PC)));
    for (let number = 1; number < 32; number++) cells.push(this.register(user, number, 'r' + number));
    cells.push(this.register(user, HI, 'hi'), this.register(user, LO, 'lo'), this.register(user, PAGES, 'pages'));
    const box = this.element('div', { class: 'cells' }, ...cells);
    this.fill(get('registers'), box);
    this.showMemory(user, flat);
    this.showJournal(user);
  }

  register(user, number, name) {
    const value = this.run.users[user - 1].r[number], made = this.cell('r:' + user + ':' + number, name, String(signed(value)), this.was('r', user, number), !value);
    made.title = name + ' is ' + hex(value);
    return made;
  }

  /** Fills a box anew, and gives the focus back to the cell that had it. */
  fill(box, ...inner) {
    const focused = document.activeElement && box.contains(document.activeElement) ? document.activeElement.dataset.choice : null;
    box.replaceChildren(...inner);
    if (focused) { const again = box.querySelector('[data-choice="' + CSS.escape(focused) + '"]'); if (again) again.focus(); }
  }

  showMemory(user, flat) {
    const run = this.run, most = 96;
    const changing = run.slots.filter(([kind, of]) => kind === 'm' && of === user).map(slot => slot[2]).sort((a, b) => a - b);
    const words = at => { const value = flat.memory.get(at) || 0, made = this.cell('m:' + user + ':' + at, at + ':', String(signed(value)), this.was('m', user, at), !value); made.title = hex(at) + ' has ' + hex(value) + (letters(value) ? " '" + letters(value) + "'" : ''); return made; };
    const inner = [];
    if (this.address !== null) {
      const shown = Array.from({ length: 32 }, (_, at) => this.address + 4 * at).filter(at => at < 4096 * flat.r[PAGES]);
      inner.push(shown.length ? this.element('div', { class: 'cells' }, ...shown.map(words)) : this.element('p', { class: 'note' }, 'This address is past its memory.'));
    }
    inner.push(this.element('p', { class: 'note' }, changing.length ? 'Words that change in these turns' + (changing.length > most ? ', the first ' + most + ' of ' + changing.length : '') + ':' : 'No word of it changes in these turns.'));
    inner.push(this.element('div', { class: 'cells' }, ...changing.slice(0, most).map(words)));
    this.fill(this.get('memory'), ...inner);
  }

  showJournal(user) {
    const { rows, steps, left } = this.run.journal(user), most = 200, shown = rows.slice(-most);
    const inner = shown.map(([turn, row]) => this.element('li', turn === this.run.turn ? { class: 'now' } : {}, row));
    const hidden = left + rows.length - shown.length;
    if (hidden) inner.unshift(this.element('li', { class: 'note' }, hidden + ' rows before'));
    if (steps) inner.push(this.element('li', {}, 'steps ' + steps));
    this.get('journal').replaceChildren(...inner);
    this.get('journal').parentElement.scrollTop = 1e9;
  }

  showGlobals() {
    const run = this.run, inner = [], most = 256;
    const touched = (kind, first, size) => [...this.changed.keys()].some(slot => { const [k, , at] = run.slots[slot]; return k === kind && at >= first && at < first + size; });
    const row = (choice, name, type, words, kind, first) => {
      const value = run.value(type, words, first), t = run.data.types[type];
      let was;
      if (touched(kind, first, run.words(type))) was = t[0] <= POINTER ? this.was(kind, 0, first) : this.wasWhole(kind, type, words, first);
      const made = this.cell(choice, run.typeName(type) + ' ' + name + ' =', value, was);
      return made;
    };
    for (const [name, type, first] of run.data.globals) inner.push(row('g:' + run.texts[name], run.texts[name], type, run.globals, 'g', first));
    run.objects.slice(0, most).forEach(([first, type], at) => inner.push(row('h:' + (at + 1), '#' + (at + 1), type, run.heap, 'h', first)));
    if (run.objects.length > most) inner.push(this.element('p', { class: 'note' }, 'and ' + (run.objects.length - most) + ' objects more'));
    if (!inner.length) inner.push(this.element('p', { class: 'note' }, 'The kernel has none.'));
    this.fill(this.get('globals'), this.element('div', { class: 'cells wide' }, ...inner));
  }

  /** The value that an array or a struct had before this turn. */
  wasWhole(kind, type, words, first) {
    const before = words.slice();
    for (const [slot, old] of this.changed) if (this.run.slots[slot][0] === kind) before[this.run.slots[slot][2]] = old;
    return this.run.value(type, before, first);
  }

  showConsole() {
    const run = this.run, most = 200, words = run.console, first = Math.max(0, words.length - most);
    let fresh = 0;
    if (run.place >= 0) for (let at = run.begins[run.firstOf[run.turn - run.first]]; at < run.begins[run.place + 1]; at++) if (run.slotOf[at] === CONSOLE) fresh++;
    const rows = words.slice(first).map((word, at) => this.cell('con', hex(word), signed(word) + (letters(word) ? " '" + letters(word) + "'" : ''), first + at >= words.length - fresh ? 'not there' : undefined));
    const text = words.map(word => letters(word) || (word === 10 ? '\n' : '·')).join('');
    const inner = [this.element('p', { class: 'note' }, words.length === 1 ? 'one word' : words.length + ' words' + (first ? ', the last ' + most + ' of them' : ''))];
    if (/[^·\n]/.test(text)) inner.push(this.element('div', { class: 'letters' }, text.slice(-2000)));
    inner.push(this.element('div', { class: 'cells wide' }, ...rows));
    this.fill(this.get('console'), ...inner);
  }

  showCursor() {
    if (!this.svg) return;
    const run = this.run, x = 96 + (run.turn + 0.5 - run.first) * 780 / (run.last + 1 - run.first);
    this.cursor.setAttribute('x1', Math.max(96, x));
    this.cursor.setAttribute('x2', Math.max(96, x));
  }
}

if (typeof document !== 'undefined') {
  window.view = new View(new Run(JSON.parse(document.getElementById('data').textContent)));
} else {
  module.exports = { Run, letters, ofHash, toHash, hex, signed };
}

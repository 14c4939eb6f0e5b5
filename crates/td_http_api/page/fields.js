// Fields of a form. Each has its node, its inputs, `read()`, which throws what is wrong as words, and `tell(words)`.

const nextId = (() => {
  let last = 0;
  return () => 'field' + ++last;
})();

function readInteger(words, typed) {
  const text = typed.replace(/\s/g, '').replace(/^\+/, '');
  if (text === '') throw new Error(words + ' is missing.');
  if (!/^-?\d+$/.test(text)) throw new Error(words + ' is a whole number, such as 12.');
  if (!isInteger(text)) throw new Error(words + ' is too large.');
  return integerCell(text);
}
function readText(words, typed) {
  if (typed.includes('\u0000')) throw new Error(words + ' has a sign that cannot be kept.');
  if (bytesOf(typed) > 7000) throw new Error(words + ' is too long.');
  return typed;
}
function readChoice(words, typed) {
  if (!typed) throw new Error(words + ' is missing.');
  return typed === 'yes';
}
function readLiteral(words, typed) {
  if (!typed.trim()) throw new Error(words + ' is missing.');
  return typed.trim();
}
function readPlain(type, words, typed) {
  const read = { INTEGER: readInteger, BOOLEAN: readChoice, CHAR: readText }[type];
  return read(words, typed);
}

class Field {
  constructor(relvar, { name, type }, cell) {
    this.name = name;
    this.type = type;
    this.id = nextId();
    this.inputs = [];
    this.onchange = () => {};
    this.fault = el('div', { class: 'fault', id: this.id + 'f', role: 'alert' });
    this.hint = el('div', { class: 'hint', id: this.id + 'h' });
    const mark = keyMark(relvar, name), label = this.labelWords();
    this.defined = typeNamed(type);
    this.isLiteral = !isPlain(type) && !(this.defined && this.defined.components.every(part => isPlain(part.type)));
    const controls = this.controls(cell);
    const isGroup = controls.length > 1 || !isPlain(type) && !this.isLiteral;
    const title = isGroup ? div('label', label, mark) : el('label', { for: this.id }, label, mark);
    const role = isGroup ? { role: 'group', 'aria-label': label } : {};
    this.node = el('div', { class: 'field', ...role }, title,
      isGroup ? div('parts', controls) : controls, this.fault, this.hint);
    if (!isGroup) this.inputs[0].id = this.id;
  }
  labelWords() {
    return plain(this.name);
  }
  controls(cell) {
    if (this.isLiteral) return [this.literalBox(cell)];
    if (isPlain(this.type)) return [this.control(this.type, cell, this.name)];
    const cells = cell === undefined ? [] : componentCells(this.defined, cell) || [];
    put(this.hint, ruleInWords(this.defined));
    return this.defined.components.map(({ name, type }, index) =>
      el('label', {}, inSentence(name), this.control(type, cells[index], name)));
  }
  control(type, cell, name) {
    return this.take(type === 'BOOLEAN' ? yesOrNo(cell, name) : this.textBox(type, cell));
  }
  take(input) {
    input.setAttribute('aria-describedby', this.fault.id + ' ' + this.hint.id);
    input.spellcheck = false;
    input.oninput = () => this.changed();
    this.inputs.push(input);
    return input;
  }
  changed() {
    this.tell('');
    this.onchange();
  }
  textBox(type, cell) {
    const box = el('input', { type: 'text', inputMode: type === 'INTEGER' ? 'numeric' : 'text', autocapitalize: 'off',
      autocomplete: 'off', dir: isText(type) ? 'auto' : null });
    box.value = cell ?? '';
    return box;
  }
  literalBox(cell) {
    const area = el('textarea', { rows: 3 });
    area.value = cell ?? (this.type.startsWith('RELATION') ? this.type + ' { }' : '');
    put(this.hint, 'Written as ' + this.type);
    return this.take(area);
  }
  typed() {
    return this.inputs.map(input => input.value);
  }
  fill(typed) {
    typed.forEach((text, index) => { if (this.inputs[index]) this.inputs[index].value = text; });
  }
  read() {
    const typed = this.typed();
    if (this.isLiteral) return readLiteral(plain(this.name), typed[0]);
    if (isPlain(this.type)) return readPlain(this.type, plain(this.name), typed[0]);
    const isOne = typed.length === 1;
    return selectorOf(this.defined, this.defined.components.map((part, index) =>
      readPlain(part.type, plain(isOne ? this.name : part.name), typed[index])));
  }
  tell(words) {
    put(this.fault, words);
    for (const input of this.inputs) {
      if (words) input.setAttribute('aria-invalid', 'true');
      else input.removeAttribute('aria-invalid');
    }
  }
  focus() {
    this.inputs[0].focus({ preventScroll: false });
  }
}
function yesOrNo(cell, name) {
  const box = selectOf(plain(name), [['', '–'], ['yes', 'yes'], ['no', 'no']]);
  if (cell !== undefined) box.value = cell ? 'yes' : 'no';
  return box;
}
// A sign at the fields of which no two entries may have the same.
function keyMark(relvar, name) {
  const key = relvar.keys.find(names => names.includes(name));
  if (!key) return '';
  const others = key.filter(other => other !== name).map(inSentence);
  const words = others.length ? 'Only once together with ' + listed(others) : 'Only once in this list';
  return sign(' ◆', words, 'mark');
}

// The choices of a field that refers to another list: what is free first, if the script defines that.
async function choicesOf(reference, name, typed) {
  const from = relvarNamed(reference.free || reference.to);
  const isLong = !isSmall(from), contains = typed && isText(from.types.get(name)) && isLong ? { contains: typed } : {};
  const order = from.count > ORDERED ? {} : { order: [[name, 'up']] };
  const { rows } = await rowsOf(from.name, { count: isLong ? 50 : SMALL, ...order, ...contains });
  return rows.map(row => ({ cell: row[name], words: othersInWords(from, row, name) }));
}
const hasChoice = ({ cell, words }, typed) => (cell + ' ' + words).toLowerCase().includes(typed.toLowerCase());

// Offers at a field what exists in the list that it refers to, and says in words whom the value means.
class Choices {
  constructor(field, reference) {
    this.field = field;
    this.reference = reference;
    this.input = field.inputs[0];
    this.all = [];
    this.asked = 0;
    this.timer = 0;
    this.list = el('div', { class: 'choices', hidden: true, role: 'group',
      'aria-label': 'From “' + plain(reference.free || reference.to) + '”' });
    // A press on a choice leaves the focus where it is.
    this.list.onmousedown = event => event.preventDefault();
    field.node.append(this.list);
    field.node.onkeydown = event => this.press(event);
    field.node.addEventListener('focusout', event => {
      if (!field.node.contains(event.relatedTarget)) this.leave();
    });
    this.input.onclick = () => this.open();
    this.input.onfocus = () => { if (!this.input.value) this.open(); };
    this.input.addEventListener('input', () => this.narrow());
    this.explain();
  }
  typed() {
    return this.input.value.trim();
  }
  // What is offered already is narrowed at once; the server is asked when the fingers rest.
  narrow() {
    put(this.field.hint, '');
    this.asked++;
    this.offer();
    clearTimeout(this.timer);
    this.timer = setTimeout(() => this.open(), 200);
  }
  async open() {
    const asked = ++this.asked;
    const all = await choicesOf(this.reference, this.field.name, this.typed()).catch(() => null);
    if (!all || asked !== this.asked || focused() !== this.input) return;
    this.all = all;
    this.offer();
  }
  offer() {
    const found = this.all.filter(choice => hasChoice(choice, this.typed())).slice(0, 50);
    draw(this.list, found.map(({ cell, words }) => button([span('', cut(String(cell), 60)),
      span('quiet', cut(words, 80))], () => this.pick(cell))));
    this.list.hidden = !found.length;
  }
  pick(cell) {
    this.input.value = cell;
    this.input.focus();
    this.field.changed();
    this.leave();
  }
  leave() {
    this.asked++;
    clearTimeout(this.timer);
    this.list.hidden = true;
    this.explain();
  }
  // The arrows go through the choices.
  press(event) {
    const step = { ArrowDown: 1, ArrowUp: -1 }[event.key], isOpen = !this.list.hidden;
    if (event.key === 'Escape' && isOpen) {
      event.stopPropagation();
      this.input.focus();
      this.leave();
    }
    if (!step) return;
    event.preventDefault();
    const stops = [this.input, ...this.list.children], at = stops.indexOf(focused()) + step;
    if (isOpen) stops[(at + stops.length) % stops.length].focus();
    else this.open();
  }
  // Whom the value means.
  async explain() {
    const typed = this.typed(), { field, reference } = this, parent = relvarNamed(reference.to);
    put(field.hint, '');
    if (!typed) return;
    try {
      const row = { [field.name]: field.read() }, found = await firstWhere(parent, row, [field.name]);
      if (this.typed() !== typed) return;
      if (found) put(field.hint, '✓ ' + cut(othersInWords(parent, found, field.name), 120));
      else field.tell(missesInWords({ ...reference, names: [field.name] }, parent, row));
    } catch { /* the server is asked again before the entry is saved */ }
  }
}
// A field for an attribute, with choices if it alone refers to another list.
function makeField(relvar, attribute, cell) {
  const field = new Field(relvar, attribute, cell);
  const references = relvar.references.filter(({ names }) => names.length === 1 && names[0] === attribute.name);
  const reference = references.find(({ free }) => free) || references[0];
  if (reference && isPlain(attribute.type)) new Choices(field, reference);
  return field;
}

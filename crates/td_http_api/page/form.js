// The form of an entry: at the side, on a phone over the whole screen.

function closeForm() {
  const form = state.form;
  state.form = null;
  panel.hidden = true;
  draw(panel);
  keep('draft', null);
  if (state.view && state.view.paintOpen) state.view.paintOpen();
  const back = form && form.back.isConnected ? form.back : byId('add') || main;
  back.focus({ preventScroll: true });
}
// Whether the open form may go: what was typed is lost with it.
const mayLeave = () => !state.form || !state.form.isTouched || confirm('What you typed is not saved. Leave it?');
function leaveForm() {
  if (mayLeave()) closeForm();
}
function showPanel(...children) {
  draw(panel, children);
  panel.hidden = false;
  if (state.view && state.view.paintOpen) state.view.paintOpen();
}
function panelHead(words) {
  return div('bar head', el('h2', {}, words), gap(),
    button('✕', leaveForm, '', { 'aria-label': 'Close', id: 'close' }));
}
function rowList(relvar, row, other) {
  const isOther = name => other && name in other && differsAt(relvar, row, other, name);
  return el('dl', {}, namesOf(relvar).filter(name => name in row).flatMap(name => [el('dt', {}, plain(name)),
    el('dd', {}, el('span', { class: isOther(name) ? 'differs' : '' }, cut(valueInWords(relvar, row, name), 120)))]));
}
function changeList(relvar, was, now) {
  return el('dl', {}, namesOf(relvar).filter(name => differsAt(relvar, was, now, name)).flatMap(name => [
    el('dt', {}, plain(name)), el('dd', {}, cut(valueInWords(relvar, was, name), 80), ' → ',
      span('differs', cut(valueInWords(relvar, now, name), 80)))]));
}
function showRow(relvar, row, isPast) {
  state.form = { id: relvar.name + json(keyOf(relvar).map(name => row[name])), back: focused(),
    refresh: () => {} };
  const from = relvar.isBase || !relvar.like ? '' : para('quiet', 'This list follows from others. Change it at ',
    link(listPath(relvar.like), plain(relvar.like), 'quiet'), '.');
  showPanel(panelHead(plain(relvar.name)), rowList(relvar, row), from,
    relvar.isBase && !isPast ? historyDetails(relvar, row) : '');
  byId('close').focus();
}
function historyDetails(relvar, row) {
  const node = details('History');
  node.id = 'history';
  node.ontoggle = () => { if (node.open && node.children.length === 1) node.append(historyOf(relvar, row)); };
  return node;
}
// Opens the form of a row, or of a new entry if there is none. `more` may have `given` values, what is `typed`, `words`
// above it, the entry that it `replaces`, and `at` of a list as it was.
function openForm(relvar, row, more) {
  if (!mayLeave()) return;
  const isPast = more && more.at;
  if (!relvar.isBase || isPast || !mayWrite()) return row && showRow(relvar, row, isPast);
  state.form = new Form(relvar, row, more || {});
  state.form.show();
}

class Form {
  constructor(relvar, old, more) {
    this.relvar = relvar;
    this.old = old;
    this.more = more;
    this.back = focused();
    this.id = relvar.name + (old ? json(keyOf(relvar).map(name => old[name])) : '+');
    this.isSaving = false;
    this.fields = relvar.attributes.map(attribute => makeField(relvar, attribute, this.startValue(attribute.name)));
    this.typedFirst = this.typed();
    if (more.typed) this.fields.forEach((field, index) => field.fill(more.typed[index] || []));
    for (const field of this.fields) field.onchange = () => this.changed();
    this.makeConditions();
    this.makeNode();
  }
  startValue(name) {
    return { ...this.old, ...this.more.given }[name];
  }
  typed() {
    return this.fields.map(field => field.typed());
  }
  field(name) {
    return this.fields.find(field => field.name === name);
  }

  // ---- What is shown

  makeConditions() {
    const { relvar, old, more } = this;
    const isOwnKey = reference => relvar.keys.some(key => key.length === 1 && key[0] === reference.names[0]);
    this.free = old ? null : relvar.references.find(reference =>
      reference.free && reference.names.length === 1 && isOwnKey(reference));
    this.ifSame = old && this.tick('Only if nobody changed it since I looked', 'This also counts at the other sites.');
    this.orNext = this.free && this.tick('If it is taken at another site by then, take the next of “'
      + plain(this.free.free) + '”');
    this.unless = more.replaces && !old && !this.free && this.tick('Only if my first entry does not count after all',
      'An entry of another site that comes late may still make it count.');
  }
  tick(words, about) {
    const input = el('input', { type: 'checkbox', checked: true, onchange: () => this.changed() });
    const node = el('label', { class: 'tick' }, input,
      span('', words, about ? [el('br'), span('quiet', about)] : ''));
    return { input, node };
  }
  makeNode() {
    const { old, more: { words, replaces } } = this;
    this.note = el('div', { role: 'alert' });
    this.code = el('pre');
    this.save = el('button', { class: 'main', type: 'submit', id: 'save' }, old ? 'Save' : 'Add');
    const next = button('Add and next', () => this.submit(true));
    this.remove = button('Delete', () => this.askDelete(), 'danger');
    const conditions = [this.ifSame, this.orNext, this.unless].map(condition => condition ? condition.node : '');
    this.node = el('form', { noValidate: true, onsubmit: event => this.submitted(event),
      onkeydown: event => { if (event.key === 'Enter' && (event.ctrlKey || event.metaKey)) this.submitted(event); } },
    words ? note('warn', words) : '', this.fields.map(field => field.node), conditions, this.note,
    div('bar acts', this.save, old || replaces ? '' : next, gap(), old ? this.remove : ''),
    old ? historyDetails(this.relvar, old) : '', details('For engineers', this.code));
  }
  show() {
    showPanel(panelHead((this.old ? '' : 'Add: ') + plain(this.relvar.name)), this.node);
    this.changed();
    (this.old ? byId('close') : this.fields[0].inputs[0]).focus({ preventScroll: true });
    if (this.old) this.refresh().catch(() => {});
  }
  changed() {
    const row = this.values(false);
    const isLike = row && this.old && !updateOf(this.relvar, this.old, row);
    put(this.code, !row ? 'Not all fields are filled in.'
      : isLike ? 'Nothing is changed.' : signed(this.statement(row)));
    const { old, more } = this, draft = { relvar: this.relvar.name, old, typed: this.typed(), replaces: more.replaces };
    this.isTouched = !isSame(draft.typed, this.typedFirst);
    keep('draft', this.isTouched || more.given ? draft : null);
  }
  say(words, kind, ...more) {
    draw(this.note, note(kind || 'bad', words, ...more));
  }
  tellAt(name, words) {
    this.field(name).tell(words);
    this.field(name).focus();
    return true;
  }

  // ---- What is entered

  // The values of the fields; null if one cannot be read, which is said if wanted.
  values(isSaid) {
    const row = {};
    let unfit = null;
    for (const field of this.fields) {
      try {
        row[field.name] = field.read();
      } catch (fault) {
        if (isSaid) field.tell(fault.message);
        unfit = unfit || field;
      }
    }
    if (unfit && isSaid) unfit.focus();
    return unfit ? null : row;
  }
  statement(row) {
    const { relvar, old } = this, isOn = condition => condition && condition.input.checked;
    if (old) return this.onlyIf(updateOf(relvar, old, row));
    if (isOn(this.unless)) return insertionUnless(relvar, row, this.more.replaces.row);
    if (isOn(this.orNext)) return insertionOrNext(relvar, row, this.free.names[0], this.free.free);
    return insertionOf(relvar, row);
  }
  onlyIf(statement) {
    return this.ifSame.input.checked ? onlyIfSeen(this.relvar, this.old, statement) : statement;
  }
  submitted(event) {
    event.preventDefault();
    this.submit(false);
  }
  async submit(isNext) {
    if (this.isSaving) return;
    const row = this.values(true);
    if (!row) return;
    if (this.old && !updateOf(this.relvar, this.old, row)) return this.say('Nothing is changed.', 'warn');
    await this.enter(() => this.statement(row), row, isNext);
  }
  askDelete() {
    if (this.isSure) return this.doDelete();
    this.isSure = true;
    put(this.remove, 'Delete for good?');
    setTimeout(() => {
      this.isSure = false;
      put(this.remove, 'Delete');
    }, 5000);
  }
  async doDelete() {
    if (!this.isSaving) await this.enter(() => this.onlyIf(deletionOf(this.relvar, this.old)), this.old, false);
  }
  async enter(statement, row, isNext) {
    await needName();
    const text = signed(statement());
    const way = this.old ? ', or take off the tick.' : '.';
    if (bytesOf(text) > LONGEST) return this.say('This entry is too long: shorten a field' + way);
    this.isSaving = this.save.disabled = true;
    draw(this.note);
    for (const field of this.fields) field.tell('');
    try {
      // A refused entry is kept for ever, at all sites, so it is tried before.
      const tried = await tryOut(text), answer = tried.refused ? tried : await issue(text);
      await (answer.refused ? this.explain(answer, row) : this.tellOutcome(answer, row, isNext));
    } catch (fault) {
      this.say(fault.message);
    }
    this.isSaving = this.save.disabled = false;
  }
  async tellOutcome(answer, row, isNext) {
    if (answer.waits) {
      toast('Nothing can be saved now. Your entry is kept in this tab, and is sent later.');
      return this.done(isNext);
    }
    if (!answer.changed.length) return this.tellNothing();
    if (this.more.replaces) await settle(this.more.replaces.stamp).catch(toastFault);
    toast(this.otherWords(answer.changed, row) || (this.old ? 'Saved.' : 'Added.'));
    this.done(isNext);
  }
  // That the next free value was taken, if it was.
  otherWords(changed, row) {
    const change = this.free && changed.find(({ relvar }) => relvar === this.relvar.name);
    if (!change || !change.in.length) return '';
    const name = this.free.names[0], took = changedRows(change)[0].now;
    if (!differsAt(this.relvar, took, row, name)) return '';
    return plain(name) + ' ' + valueInWords(this.relvar, row, name) + ' is taken: it is '
      + valueInWords(this.relvar, took, name) + ' now.';
  }
  async tellNothing() {
    if (!this.old) return this.say('It was there already, just so.', 'warn');
    const now = await firstWhere(this.relvar, this.old, keyOf(this.relvar));
    if (now) this.tellChange(now, 'Nothing was saved: somebody changed this since you looked.');
    else this.say('Nothing was saved: somebody deleted it.');
  }
  done(isNext) {
    if (state.form !== this) return;
    closeForm();
    if (isNext) openForm(this.relvar, null);
  }

  // ---- Why an entry is refused: beside the field if it is of one

  async explain({ refused, breaks }, row) {
    const isTold = !breaks ? await this.explainValues(row) : isKey(breaks) ? await this.explainKey(row)
      : await this.explainRule(constraintNamed(breaks.name), row);
    if (!isTold) this.say(reasonInWords(refused, breaks));
  }
  async explainValues(row) {
    for (const { name, defined, isLiteral } of this.fields) {
      const words = defined || isLiteral ? await unfitWords(name, defined, row[name]) : '';
      if (words) return this.tellAt(name, words);
    }
    return false;
  }
  async explainKey(row) {
    const { relvar, old } = this;
    for (const key of relvar.keys) {
      const isAsBefore = old && !key.some(name => differsAt(relvar, old, row, name));
      const takesNext = this.orNext && this.orNext.input.checked && isSame(key, this.free.names);
      const there = isAsBefore || takesNext ? null : await firstWhere(relvar, row, key);
      if (there) return this.tellKey(key, there);
    }
    return false;
  }
  tellKey(key, there) {
    const [first] = key.length ? key : namesOf(this.relvar);
    this.tellAt(first, existsInWords(this.relvar, there, key));
    this.field(first).fault.append(' ', button('Open it', () => openForm(this.relvar, there), 'plain'));
    return true;
  }
  explainRule(constraint, row) {
    const { reference, text } = constraint, { name } = this.relvar;
    if (reference && reference.from === name) {
      return this.tellAt(reference.names[0], missesInWords(reference, this.relvar, row));
    }
    if (reference && reference.to === name) return this.tellNeed(reference);
    const words = wordsOf(text), field = this.fields.find(other => words.includes(other.name));
    if (field) this.tellAt(field.name, ruleNotAllowed(constraint));
    this.say(ruleNotAllowed(constraint), 'bad', details('The rule', pre('', text)));
    return true;
  }
  // Other entries refer to this one.
  async tellNeed({ from, names }) {
    const { relvar, old } = this, filters = names.map(name => name + ':is:' + old[name]);
    const count = await valueOf('COUNT ( ' + where(relvarNamed(from), equalAt(relvar, old, names)) + ' )');
    this.say(counted(count, 'entry', 'entries') + ' in “' + plain(from) + '” need' + (count === 1 ? 's' : '')
      + ' this one as it is. ', 'bad', el('a', { href: linkTo(from, filters) }, 'Show'));
    return true;
  }

  // ---- A row that is changed while its form is open

  tellChange(now, words) {
    const keepMine = () => {
      const typed = this.typed().map((texts, index) => isSame(texts, this.typedFirst[index]) ? [] : texts);
      this.isTouched = false;
      openForm(this.relvar, now, { typed, replaces: this.more.replaces });
    };
    draw(this.note, el('div', { class: 'note warn', id: 'changed' }, el('b', {}, words),
      changeList(this.relvar, this.old, now), bar(button('Keep my fields, on top of this', keepMine),
        button('Show what is there now', () => openForm(this.relvar, now)))));
  }
  async refresh() {
    if (!this.old || this.isSaving) return;
    const now = await firstWhere(this.relvar, this.old, keyOf(this.relvar));
    if (state.form !== this || this.isSaving) return;
    if (!now) return this.say('This is no longer here: somebody deleted it, or changed what it is found by.', 'warn');
    if (!namesOf(this.relvar).some(name => differsAt(this.relvar, this.old, now, name))) return;
    this.tellChange(now, 'This was changed while you looked.');
  }
}
// Why a value of a defined type is none, in words; empty if it is one.
async function unfitWords(name, type, literal) {
  try {
    if (!(await query(literal)).raised) return '';
  } catch (fault) {
    if (fault instanceof Away) throw fault;
    return plain(name) + ': ' + fault.message.split('\n')[0];
  }
  const rule = ruleInWords(type);
  return plain(name) + ' is not allowed' + (rule ? ': it must be ' + rule + '.' : '.');
}

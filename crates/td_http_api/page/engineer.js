// The engineer's box: queries, statements, refused statements, and the script.

// A statement is edited without the comments of its key and of the server, since it gets others.
const withoutKey = text => text.replace(/^(\/\* ([0-9a-f]{16}|by [^]*?) \*\/ )+/, '');

class Box {
  constructor(text) {
    this.past = kept('past', []);
    this.position = this.past.length;
    this.text = el('textarea', { 'aria-label': 'Query or statement', autocapitalize: 'off' });
    this.text.spellcheck = false;
    this.text.value = text || kept('box', '');
    this.text.oninput = () => keep('box', this.text.value);
    this.text.onkeydown = event => this.press(event);
    this.at = el('input', { size: 8, placeholder: 'now', 'aria-label': 'as of a stamp', id: 'at' });
    this.out = el('div', { 'aria-live': 'polite', id: 'answer' });
  }
  nodes() {
    return [this.text, bar(button('Run (Ctrl+Enter)', () => this.run(), 'main', { id: 'run' }),
      el('label', {}, 'as of ', this.at)), this.out];
  }
  edit(text) {
    this.text.value = withoutKey(text);
    this.text.focus();
  }
  press(event) {
    const { value, selectionStart, selectionEnd } = this.text, isEnter = event.key === 'Enter';
    if (isEnter && (event.ctrlKey || event.metaKey)) this.run();
    else if (event.key === 'ArrowUp' && !value.slice(0, selectionStart).includes('\n')) this.recall(-1);
    else if (event.key === 'ArrowDown' && !value.slice(selectionEnd).includes('\n')) this.recall(1);
    else return;
    event.preventDefault();
  }
  recall(step) {
    const position = this.position + step;
    if (position < 0 || position > this.past.length) return;
    this.position = position;
    this.text.value = this.past[position] || '';
  }
  remember(text) {
    if (this.past.at(-1) !== text) this.past.push(text);
    keep('past', this.past = this.past.slice(-100));
    this.position = this.past.length;
  }
  async run() {
    const text = this.text.value.trim(), at = this.at.value.trim();
    if (!text) return;
    this.remember(text);
    try {
      if (text.endsWith(';')) await this.runStatement(text, at);
      else await this.runQuery(text, at ? { at } : {});
    } catch (fault) {
      draw(this.out, pre('bad', fault.message));
    }
  }
  async runStatement(text, at) {
    if (at) throw new Error('A statement is issued now and never in the past. Empty “as of” first, or ask a query.');
    const answer = await issue(text);
    const words = answer.waits ? answer.why + ' The statement is kept in this tab, and is sent again under its key.'
      : answer.stamp + (answer.refused ? ' refused: ' + answer.refused : ' done');
    draw(this.out, note(answer.refused ? 'bad' : 'good', words),
      (answer.changed || []).length ? para('', answer.changed.map(changeInWords).join(' · ')) : '');
  }
  async runQuery(text, moment) {
    const page = first => query(text, { ...moment, first, count: 200 }), answer = await page(0);
    if (answer.heading) return this.showRelation(answer, page);
    draw(this.out, answer.raised ? pre('bad', 'raised: ' + answer.raised)
      : pre('', String(answer.value)));
  }
  showRelation(answer, page) {
    const body = el('tbody'), words = para('quiet');
    const further = button('More', () => page(body.rows.length).then(add).catch(toastFault));
    const add = ({ rows, total }) => {
      body.append(...rows.map(cells => el('tr', {}, cells.map(cell => el('td', {}, cut(csvText(cell), 2000))))));
      put(words, number(body.rows.length) + ' of ' + number(total));
      further.hidden = body.rows.length >= total;
    };
    const head = answer.heading.map(({ name, type }) => el('th', { scope: 'col' }, el('span', { title: type }, name)));
    draw(this.out, tableOf(head, body), words, further);
    add(answer);
  }
}
function refusedCard(box, entry) {
  return card(entry, '', span('bad', entry.reason),
    mayWrite() ? button('Change', () => box.edit(entry.text)) : '', pre('', cut(entry.text, 2000)));
}
function showEngineer(_, params) {
  const box = new Box(params.get('text')), script = pre(''), refused = div('');
  showHead('Query or statement', 'Tutorial D. A statement ends with a semicolon.').append(...box.nodes(),
    details('Refused statements', refused), details('Script', script));
  const refresh = async () =>
    redraw(refused, (await refusedEntries()).slice(-200).reverse().map(entry => refusedCard(box, entry)));
  state.view = { path: 'engineer', refresh };
  refresh().catch(toastFault);
  box.text.focus({ preventScroll: true });
  return call('/api/script').then(told => put(script, told.script));
}

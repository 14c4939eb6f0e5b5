// A list: search, filters, order, pages, print, and CSV down.

const PAGE = 50;
// Up to this length a list is read as a whole, searched by what is shown, and ordered as people order words. A longer
// one is searched and ordered by the server.
const SMALL = 3000;
const SIGNS = new Map([['is', '='], ['not', '<>'], ['least', '>='], ['most', '<=']]);
const SIGN_WORDS = { is: 'is', not: 'is not', least: 'at least', most: 'at most' };

// The server takes half a second to order 100,000 rows, so a long list has the language's own order at first.
const ORDERED = 20000;

const isSmall = relvar => Number(relvar.count) <= SMALL;
const firstOrder = relvar => relvar.count > ORDERED ? '' : keyOf(relvar)[0] || namesOf(relvar)[0];

// What a filter may compare: plain values, and the components of others.
function filterColumns(relvar) {
  return relvar.attributes.flatMap(({ name, type }) => {
    if (isPlain(type)) return [{ id: name, words: plain(name), type, term: name }];
    const defined = typeNamed(type);
    return defined ? defined.components.filter(component => isPlain(component.type)).map(component => ({
      id: name + '.' + component.name, words: plain(name) + ' (' + inSentence(component.name) + ')',
      type: component.type, term: 'THE_' + component.name + ' ( ' + name + ' )' })) : [];
  });
}
function fitsColumn({ type }, sign, value) {
  if (type === 'INTEGER') return isInteger(value);
  return type !== 'BOOLEAN' || /^(yes|no)$/.test(value) && /^(is|not)$/.test(sign);
}
const filterCell = (column, value) => column.type === 'BOOLEAN' ? value === 'yes' : value;
const conditionOf = ({ column, sign, value }) =>
  column.term + ' ' + SIGNS.get(sign) + ' ' + literalOf(column.type, filterCell(column, value));
function readFilter(columns, text) {
  const found = /^([\w#.]+):(\w+):([^]*)$/.exec(text);
  const column = found && columns.find(other => other.id === found[1]);
  if (!column || !SIGNS.has(found[2]) || !fitsColumn(column, found[2], found[3])) return null;
  return { column, sign: found[2], value: found[3], text };
}
const filterWords = ({ column, sign, value }) => column.words + ' ' + SIGN_WORDS[sign] + ' ' + value;

const collator = new Intl.Collator(undefined, { numeric: true, sensitivity: 'base' });
const compareIntegers = (one, other) => Number(BigInt(one) > BigInt(other)) - Number(BigInt(one) < BigInt(other));
function compareCells(type, one, other) {
  if (type === 'INTEGER') return compareIntegers(one, other);
  const defined = typeNamed(type);
  if (!defined) return isText(type) ? collator.compare(one, other) : Number(one > other) - Number(one < other);
  const [ours, theirs] = [componentCells(defined, one) || [], componentCells(defined, other) || []];
  return ours.reduce((so, cell, index) => so || compareCells(defined.components[index].type, cell, theirs[index]), 0);
}

function route(path, params) {
  const search = String(params || '');
  return '#/' + path + (search ? '?' + search : '');
}
function go(path, params, replaces) {
  if (!replaces) location.hash = route(path, params);
  else {
    history.replaceState(null, '', route(path, params));
    show();
  }
}
const listPath = name => 'list/' + encodeURIComponent(name);
const linkTo = (name, filters) => route(listPath(name), new URLSearchParams(filters.map(filter => ['f', filter])));

class Grid {
  constructor(relvar, params) {
    this.relvar = relvar;
    this.params = params;
    this.columns = filterColumns(relvar);
    this.filters = params.getAll('f').map(text => readFilter(this.columns, text)).filter(Boolean);
    this.search = params.get('q') || '';
    this.order = relvar.types.has(params.get('s')) ? params.get('s') : firstOrder(relvar);
    this.isDown = params.get('d') === '1';
    this.page = Math.max(0, Number(params.get('p')) || 0);
    this.at = params.get('at') || '';
    this.shown = null;
    this.rowsShown = [];
    this.view = { path: 'list/' + relvar.name, refresh: () => this.fill(), paintOpen: () => this.paintOpen() };
  }

  // The way to the same list with other parameters: from the first page on, if no page is among them.
  route(changes) {
    const params = new URLSearchParams(this.params);
    for (const [name, values] of Object.entries({ p: '', ...changes })) {
      params.delete(name);
      for (const value of [values].flat()) if (value !== '') params.append(name, value);
    }
    return route(listPath(this.relvar.name), this.params = params);
  }
  set(changes) {
    location.hash = this.route(changes);
  }
  find(text) {
    this.search = text;
    this.page = 0;
    this.shown = null;
    history.replaceState(null, '', this.route({ q: text }));
    this.fill().catch(fault => put(this.status, fault.message));
  }
  goToPage(page) {
    this.set({ p: page || '' });
  }

  // ---- What is read

  queryText() {
    const conditions = this.filters.map(conditionOf).join(' AND ');
    return conditions ? where(this.relvar, conditions) : this.relvar.name;
  }
  moment() {
    return this.at ? { at: this.at } : {};
  }
  async all() {
    if (!this.cache || this.cacheVector !== state.vector) {
      const vector = state.vector;
      this.cache = (await rowsOf(this.queryText(), this.moment())).rows;
      this.cacheVector = vector;
    }
    return this.cache;
  }
  isFound(row) {
    const searched = this.search.toLowerCase();
    return namesOf(this.relvar).some(name => valueInWords(this.relvar, row, name).toLowerCase().includes(searched));
  }
  async rows(first, count) {
    if (isSmall(this.relvar)) {
      const type = this.relvar.types.get(this.order), way = this.isDown ? -1 : 1;
      const found = (await this.all()).filter(row => this.isFound(row));
      found.sort((one, other) => way * compareCells(type, one[this.order], other[this.order]));
      return { total: found.length, rows: found.slice(first, first + count) };
    }
    const order = this.order ? { order: [[this.order, this.isDown ? 'down' : 'up']] } : {};
    const contains = this.search ? { contains: this.search } : {};
    return rowsOf(this.queryText(), { ...this.moment(), ...contains, ...order, first, count });
  }

  // ---- What is shown

  show() {
    const { relvar } = this;
    this.canAdd = relvar.isBase && !this.at && mayWrite();
    this.status = el('span', { class: 'quiet', role: 'status' });
    this.empty = el('div', { class: 'empty', hidden: true });
    this.body = el('tbody', { onclick: event => this.openAt(event), onkeydown: event => this.moveFrom(event) });
    this.box = el('div', { class: 'wide grid cards', tabindex: '-1' }, el('table', {}, this.head(), this.body));
    this.filterBar = this.makeFilterBar();
    this.paper = para('paper');
    draw(main, this.titleBar(), this.pastNote(), this.toolBar(), this.filterBar, this.chips(), this.paper, this.box,
      this.empty, this.pageBar(), this.actBar());
    state.view = this.view;
    this.box.classList.add('busy');
    return this.fill().catch(fault => put(this.status, fault.message)).finally(() => this.box.classList.remove('busy'));
  }
  titleBar() {
    return div('bar head', el('h2', {}, plain(this.relvar.name)),
      this.relvar.isBase ? null : span('tag', 'follows from other lists'), gap(),
      this.canAdd ? button('+ Add', () => this.add(), 'main', { id: 'add', title: 'Add (N)' }) : null);
  }
  add() {
    openForm(this.relvar, null);
  }
  pastWords() {
    const time = this.params.get('t');
    return 'As it was ' + (time ? 'on ' + dateInWords(time) + ', ' : '') + 'just after ' + this.at;
  }
  pastNote() {
    if (!this.at) return '';
    return note('warn', this.pastWords() + ', by what is known today. Nothing can be changed here. ',
      button('Back to now', () => this.set({ at: '', t: '' }), 'plain'));
  }
  toolBar() {
    return bar(this.searchBox(), button('Filter', () => this.toggleFilters(), '', { 'aria-controls': 'filters' }),
      this.orderChoice());
  }
  searchBox() {
    const box = searchBox('Search in ' + plain(this.relvar.name), this.search, text => this.find(text));
    box.id = 'search';
    if (!isSmall(this.relvar)) box.placeholder = 'Search in texts';
    box.onkeydown = event => {
      if (event.key !== 'ArrowDown' || !this.body.rows.length) return;
      event.preventDefault();
      this.body.querySelector('button').focus();
    };
    return box;
  }
  // A phone has no heads of columns.
  orderChoice() {
    const box = selectOf('In the order of', this.relvar.attributes.flatMap(({ name }) =>
      [[name + ' ', '↑ ' + plain(name)], [name + ' 1', '↓ ' + plain(name)]]));
    box.value = this.order + (this.isDown ? ' 1' : ' ');
    box.className = 'onphone';
    box.onchange = () => {
      const [s, d] = box.value.split(' ');
      this.set({ s, d });
    };
    return box;
  }
  actBar() {
    const { name, isBase } = this.relvar, path = encodeURIComponent(name);
    return bar(button('Print', () => this.print()), button('Download CSV', () => this.download()),
      isBase && mayWrite() ? link('upload/' + path, 'Upload CSV') : '', link('past/' + path, 'As it was'));
  }
  toggleFilters() {
    this.filterBar.hidden = !this.filterBar.hidden;
    if (!this.filterBar.hidden) this.filterBar.querySelector('select').focus();
  }
  makeFilterBar() {
    const columns = selectOf('Column', this.columns.map(({ id, words }) => [id, words]));
    const signs = selectOf('Comparison', Object.entries(SIGN_WORDS)), value = el('input', { 'aria-label': 'Value' });
    const add = () => {
      const text = columns.value + ':' + signs.value + ':' + value.value.trim();
      if (readFilter(this.columns, text)) return this.set({ f: [...this.params.getAll('f'), text] });
      value.setAttribute('aria-invalid', 'true');
      value.focus();
    };
    value.onkeydown = event => { if (event.key === 'Enter') add(); };
    return el('div', { class: 'bar', hidden: true, id: 'filters' }, columns, signs, value,
      button('Apply the filter', add, 'main'));
  }
  chips() {
    const remove = filter => this.set({ f: this.params.getAll('f').filter(text => text !== filter.text) });
    return el('div', { class: 'bar', hidden: !this.filters.length }, this.filters.map(filter =>
      span('chip', filterWords(filter),
        button('✕', () => remove(filter), '', { 'aria-label': 'Remove this filter' }))));
  }
  // What is printed above the list.
  paperWords() {
    const parts = [plain(this.relvar.name), 'site ' + state.site.site, 'printed ' + new Date().toLocaleString()];
    if (this.search) parts.push('search ' + this.search);
    if (this.at) parts.push(this.pastWords());
    return parts.concat(this.filters.map(filterWords)).join(' · ');
  }
  pageBar() {
    this.back = button('‹ Back', () => this.goToPage(this.page - 1), '', { id: 'back', disabled: true });
    this.next = button('Next ›', () => this.goToPage(this.page + 1), '', { id: 'next', disabled: true });
    return bar(this.status, gap(), this.back, this.next);
  }
  head() {
    return el('thead', {}, el('tr', {}, this.relvar.attributes.map(({ name, type }, index) => {
      const isOrder = this.order === name, way = this.isDown ? 'descending' : 'ascending';
      const words = plain(name) + (isOrder ? this.isDown ? ' ▼' : ' ▲' : '');
      const choose = () => this.set({ s: name, d: isOrder && !this.isDown ? '1' : '' });
      return el('th', { scope: 'col', class: index && isNumber(type) ? 'n' : '', 'aria-sort': isOrder ? way : 'none' },
        button(words, choose, '', { title: 'In the order of ' + plain(name) }));
    })));
  }
  cell(row, { name, type }, index) {
    const words = cut(inWords(type, row[name]), 200);
    const shown = index ? el('span', { class: 'value', dir: isText(type) ? 'auto' : null }, words)
      : el('button', { class: 'open', type: 'button' }, words || '(empty)');
    return el('td', { class: index && isNumber(type) ? 'n' : '', 'data-label': plain(name) }, shown);
  }
  idOf(row) {
    return json(keyOf(this.relvar).map(name => row[name]));
  }
  line(row) {
    const cells = this.relvar.attributes.map((attribute, index) => this.cell(row, attribute, index));
    return el('tr', { 'data-id': this.idOf(row) }, cells);
  }
  // Reads what is to be shown, one request at a time: an answer to what is no longer asked is dropped.
  async fill() {
    this.isStale = this.isFilling;
    if (this.isFilling) return;
    this.isFilling = true;
    const found = await this.rows(this.page * PAGE, PAGE).catch(fault => ({ fault }));
    this.isFilling = false;
    if (this.isStale) return this.fill();
    if (found.fault) throw found.fault;
    return state.view === this.view && this.paint(found);
  }
  // Draws what changed: a row that is as it was stays, with the focus in it.
  paint({ total, rows }) {
    const text = json([total, rows]);
    put(this.paper, this.paperWords());
    if (text === this.shown) return;
    const old = new Map(this.rowsShown.map((row, index) => [json(row), this.body.rows[index]]));
    const id = hasFocus(this.body) ? focused().closest('tr').dataset.id : null;
    const lines = rows.map(row => old.get(json(row)) || this.line(row));
    if (this.shown !== null) for (const line of lines) line.classList.toggle('fresh', !this.body.contains(line));
    draw(this.body, lines);
    this.shown = text;
    this.rowsShown = rows;
    if (id !== null) this.focusOn(id);
    this.paintPages(total);
    this.paintOpen();
  }
  focusOn(id) {
    const line = [...this.body.rows].find(other => other.dataset.id === id) || this.body.rows[0];
    if (line) line.querySelector('button').focus({ preventScroll: true });
  }
  paintPages(total) {
    const first = this.page * PAGE;
    const range = number(first + 1) + '–' + number(first + this.rowsShown.length) + ' of ' + number(total);
    put(this.status, total > PAGE ? range : total ? counted(total, 'entry', 'entries') : '');
    this.back.hidden = this.next.hidden = total <= PAGE;
    this.back.disabled = this.page === 0;
    this.next.disabled = first + this.rowsShown.length >= total;
    this.empty.hidden = total > 0;
    this.box.hidden = total === 0;
    if (!total) draw(this.empty, this.emptyWords());
  }
  emptyWords() {
    if (this.search || this.filters.length) {
      return [para('', 'Nothing fits.'), button('Show all', () => this.set({ q: '', f: [] }))];
    }
    return [para('', 'Nothing is here yet.'), this.canAdd ? button('+ Add the first', () => this.add(), 'main') : ''];
  }
  paintOpen() {
    for (const line of this.body.rows) {
      line.classList.toggle('on', Boolean(state.form && state.form.id === this.relvar.name + line.dataset.id));
    }
  }
  openAt(event) {
    const line = event.target.closest('tr');
    if (!line || getSelection().toString()) return;
    openForm(this.relvar, this.rowsShown.find(row => this.idOf(row) === line.dataset.id), { at: this.at });
  }
  moveFrom(event) {
    const line = event.target.closest('tr');
    const above = line.previousElementSibling || byId('search');
    const to = { ArrowDown: line.nextElementSibling, ArrowUp: above }[event.key];
    if (!to) return;
    event.preventDefault();
    (to.querySelector('button') || to).focus();
  }

  // ---- Print and CSV

  async print() {
    const most = 2000, { total, rows } = await this.rows(0, most), was = [...this.body.childNodes];
    const words = this.paperWords();
    const part = total > rows.length ? ' · the first ' + number(rows.length) + ' of ' + number(total) : '';
    put(this.paper, words + part);
    draw(this.body, rows.map(row => this.line(row)));
    print();
    draw(this.body, was);
    put(this.paper, words);
  }
  // What the list shows, all pages, in its order, in the form of `/api/relvars/R.csv`.
  async download() {
    const names = namesOf(this.relvar), lines = [names.join(',')];
    try {
      for (let first = 0, total = 1; first < total; first += 5000) {
        const part = await this.rows(first, 5000);
        total = part.total;
        lines.push(...part.rows.map(row => names.map(name => csvCell(row[name])).join(',')));
      }
    } catch (fault) {
      return toast(fault.message);
    }
    saveFile(this.relvar.name + '.csv', lines.join('\r\n') + '\r\n');
  }
}
const csvText = cell => typeof cell === 'boolean' ? String(cell).toUpperCase() : String(cell);
function csvCell(cell) {
  const text = csvText(cell);
  return /[",\r\n]/.test(text) ? '"' + text.replaceAll('"', '""') + '"' : text;
}
function saveFile(name, text) {
  const to = el('a', { href: URL.createObjectURL(new Blob([text], { type: 'text/csv' })), download: name });
  to.click();
  setTimeout(() => URL.revokeObjectURL(to.href), 10000);
}
function showList(name, params) {
  const relvar = relvarNamed(name);
  if (!relvar) return showNothing('There is no list of this name.');
  if (!relvar.attributes.length) return showNothing('“' + plain(name) + '” has no columns.');
  return new Grid(relvar, params).show();
}

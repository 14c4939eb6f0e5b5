// CSV up: each line is checked and shown before anything is saved.

const SEPARATORS = [',', ';', '\t'];

// Reads the rest of a cell in quotation marks; returns its text and where it ends.
function quotedCell(text, from, line) {
  let cell = '';
  for (let at = from; ; at++) {
    const end = text.indexOf('"', at);
    if (end < 0) throw new Error('A quotation mark in line ' + line + ' is not closed.');
    cell += text.slice(at, end);
    if (text[end + 1] !== '"') return [cell, end + 1];
    cell += '"';
    at = end + 1;
  }
}
function readCsv(file) {
  const text = file.replace(/^\ufeff/, '').replaceAll('\r\n', '\n'), head = text.split('\n', 1)[0];
  const separator = SEPARATORS.reduce((best, sign) => head.split(sign).length > head.split(best).length ? sign : best);
  const lines = [[]];
  let cell = '';
  const endCell = () => {
    lines.at(-1).push(cell);
    cell = '';
  };
  for (let at = 0; at < text.length;) {
    const sign = text[at++];
    if (sign === '"' && cell === '') [cell, at] = quotedCell(text, at, lines.length);
    else if (sign === separator) endCell();
    else if (sign === '\n') {
      endCell();
      lines.push([]);
    } else cell += sign;
  }
  endCell();
  return lines.filter(cells => cells.length > 1 || cells[0] !== '');
}

const unfitCell = (words, typed, reason) => new Error(words + ': “' + cut(typed, 30) + '” ' + reason);
function booleanFromCsv(words, typed) {
  if (/^(true|yes|1)$/i.test(typed.trim())) return true;
  if (/^(false|no|0)$/i.test(typed.trim())) return false;
  throw unfitCell(words, typed, 'is not yes or no');
}
function cellFromCsv(type, words, typed) {
  if (type === 'BOOLEAN') return booleanFromCsv(words, typed);
  if (type === 'INTEGER' && !isInteger(typed.trim())) throw unfitCell(words, typed, 'is no whole number');
  if (isText(type) && /[\u0000\r\n]/.test(typed)) throw new Error(words + ' has a line end');
  if (isPlain(type)) return cellOf(type, isText(type) ? quoted(typed) : typed);
  const defined = typeNamed(type), [component] = defined ? defined.components : [];
  if (defined && defined.components.length === 1 && !typed.includes('(')) {
    const bare = typed.replace(new RegExp('\\s*' + component.name + '$', 'i'), '');
    return selectorOf(defined, [cellFromCsv(component.type, words, bare)]);
  }
  if (!typed.trim()) throw new Error(words + ' is missing');
  if (defined && !componentCells(defined, typed)) throw unfitCell(words, typed, 'is no ' + defined.possrep + ' ( .. )');
  return typed;
}
// Parts whose texts fit into one query or entry.
function chunksOf(rows, textOf) {
  const chunks = [];
  let bytes = Infinity;
  for (const row of rows) {
    const size = bytesOf(textOf(row)) + 2;
    if (bytes + size > 7000) chunks.push([]);
    bytes = chunks.at(-1).length ? bytes + size : size;
    chunks.at(-1).push(row);
  }
  return chunks;
}

class Upload {
  constructor(relvar) {
    this.relvar = relvar;
    this.names = namesOf(relvar);
    this.out = el('div', { id: 'upload' });
    const file = el('input', { type: 'file', accept: '.csv,.tsv,.txt,text/csv', 'aria-label': 'CSV file', id: 'file' });
    file.onchange = () => this.take(file.files[0]);
    main.append(bar(file, link(listPath(relvar.name), 'Back to the list')), this.out);
  }
  async take(file) {
    put(this.out, 'Looking…');
    try {
      await this.look(await file.text());
    } catch (fault) {
      draw(this.out, note('bad', fault.message));
    }
  }
  columnsOf(head) {
    const isAt = name => heading => [name, plain(name)].some(words => words.toLowerCase() === heading.toLowerCase());
    const columns = this.names.map(name => head.findIndex(isAt(name)));
    const missing = this.names.filter((_, index) => columns[index] < 0);
    if (!missing.length) return columns;
    throw new Error('The file lacks ' + listed(missing.map(plain)) + '. Its first line has: ' + head.join(', '));
  }
  // The lines as { line, row }, or { line, unfit } with what is wrong.
  readLines(text) {
    const [head = [], ...lines] = readCsv(text), columns = this.columnsOf(head.map(cell => cell.trim()));
    const seen = new Map();
    return lines.map((cells, index) => {
      const line = index + 2;
      try {
        if (cells.length !== head.length) throw new Error('has ' + cells.length + ' cells and not ' + head.length);
        const row = Object.fromEntries(this.relvar.attributes.map(({ name, type }, at) =>
          [name, cellFromCsv(type, plain(name), cells[columns[at]])]));
        this.noteKeys(seen, row, line);
        return { line, row };
      } catch (fault) {
        return { line, unfit: fault.message };
      }
    });
  }
  noteKeys(seen, row, line) {
    for (const key of this.relvar.keys) {
      const id = equalAt(this.relvar, row, key);
      if (seen.has(id)) throw new Error('has the same ' + listed(key.map(inSentence)) + ' as line ' + seen.get(id));
      seen.set(id, line);
    }
  }
  // Marks the lines that are in `RELATION { .. } MATCHING S`, or not, at these attributes.
  async markFound(lines, names, operator, words) {
    const tuple = ({ row }) => tupleOf(this.relvar, row, names), idOf = row => equalAt(this.relvar, row, names);
    for (const chunk of chunksOf(lines.filter(({ unfit }) => !unfit), tuple)) {
      const { rows } = await rowsOf(relationOf(chunk.map(tuple)) + operator), found = new Set(rows.map(idOf));
      for (const line of chunk) if (found.has(idOf(line.row))) line.unfit = words(line.row);
    }
  }
  async markValues(lines, { name, type }) {
    const defined = typeNamed(type), unfit = new Map();
    for (const literal of new Set(defined ? lines.filter(line => line.row).map(({ row }) => row[name]) : [])) {
      unfit.set(literal, await unfitWords(name, defined, literal));
    }
    for (const line of lines) if (!line.unfit) line.unfit = unfit.get(line.row[name]);
  }
  chunks(lines) {
    return chunksOf(lines, ({ row }) => rowText(this.relvar, row));
  }
  insertion(lines) {
    return insertionOf(this.relvar, ...lines.map(({ row }) => row));
  }
  // Marks the lines that a rule does not allow: of a part that is refused both halves are tried.
  async markRefused(lines) {
    const { refused, breaks } = lines.length ? await tryOut(this.insertion(lines)) : {};
    if (refused && lines.length === 1) lines[0].unfit = reasonInWords(refused, breaks);
    if (!refused || lines.length === 1) return;
    await this.markRefused(lines.slice(0, lines.length / 2));
    await this.markRefused(lines.slice(lines.length / 2));
  }
  async look(text) {
    const lines = this.readLines(text), { relvar } = this;
    put(this.out, 'Checking ' + counted(lines.length, 'line', 'lines') + '…');
    for (const key of relvar.keys.filter(names => names.length)) {
      await this.markFound(lines, key, ' MATCHING ' + relvar.name, row =>
        'is there already: ' + pairsInWords(relvar, row, key));
    }
    for (const reference of relvar.references) {
      await this.markFound(lines, reference.names, ' NOT MATCHING ' + reference.to, row =>
        missesInWords(reference, relvar, row));
    }
    for (const attribute of relvar.attributes) await this.markValues(lines, attribute);
    for (const chunk of this.chunks(lines.filter(line => !line.unfit))) await this.markRefused(chunk);
    this.showPlan(lines.filter(line => !line.unfit), lines.filter(line => line.unfit));
  }
  showPlan(good, bad) {
    const chunks = this.chunks(good), { held, limit } = state.site;
    const left = bad.length ? ', ' + counted(bad.length, 'does', 'do') + ' not and will be left out' : '';
    const start = button('Add ' + counted(good.length, 'line', 'lines'), () => this.run(chunks, good.length), 'main',
      { id: 'start', disabled: !good.length });
    const words = counted(good.length, 'line fits', 'lines fit') + left + '. They take ' + number(chunks.length)
      + ' of the ' + number(limit - held) + ' entries for which there is room.';
    draw(this.out, note(bad.length ? 'warn' : 'good', words), bad.length ? this.unfitList(bad) : '',
      bar(start), el('h3', {}, 'The first lines'), this.preview(good.slice(0, 20)));
  }
  unfitList(bad) {
    const lines = bad.slice(0, 50).map(({ line, unfit }) => 'Line ' + line + ' ' + cut(unfit, 200));
    if (bad.length > 50) lines.push('and ' + (bad.length - 50) + ' more');
    const list = details('Lines that do not fit', el('ul', {}, lines.map(words => el('li', {}, words))));
    list.open = true;
    return list;
  }
  preview(lines) {
    const head = this.names.map(name => el('th', {}, span('', plain(name))));
    return tableOf(head, el('tbody', {}, lines.map(({ row }) => el('tr', {}, this.names.map(name =>
      el('td', {}, cut(valueInWords(this.relvar, row, name), 120)))))));
  }
  async run(chunks, total) {
    await needName();
    this.failures = [];
    this.added = 0;
    state.isUploading = true;
    const progress = el('progress', { max: total, value: 0, 'aria-label': 'Saved' });
    const words = el('p', { role: 'status' });
    draw(this.out, words, progress);
    for (const chunk of chunks) {
      await this.send(chunk, words);
      progress.value = this.added;
      put(words, number(this.added) + ' of ' + number(total) + ' saved');
    }
    state.isUploading = false;
    siteTag = null;
    poll();
    this.showEnd();
  }
  // Sends a part under one key until it is answered.
  async send(chunk, words) {
    const text = signed(this.insertion(chunk)), key = newKey();
    for (;;) {
      try {
        const { refused, breaks } = await call('/api/statement', { text, key });
        if (refused) this.fail(chunk, reasonInWords(refused, breaks));
        else this.added += chunk.length;
        return;
      } catch (fault) {
        if (!(fault instanceof Away)) return this.fail(chunk, fault.message);
        put(words, fault.message + ' Waiting…');
        await pause(2000);
      }
    }
  }
  fail(chunk, reason) {
    this.failures.push('Lines ' + chunk[0].line + ' to ' + chunk.at(-1).line + ' were refused: ' + reason);
  }
  showEnd() {
    const kind = this.failures.length ? 'warn' : 'good';
    const words = counted(this.added, 'line was', 'lines were') + ' added.';
    draw(this.out, el('div', { class: 'note ' + kind, id: 'uploaded' }, words),
    el('ul', {}, this.failures.map(words => el('li', { class: 'bad' }, words))),
    link(listPath(this.relvar.name), 'To the list', 'button main'));
  }
}
function showUpload(name) {
  const relvar = relvarNamed(name);
  if (!relvar || !relvar.isBase || !mayWrite()) return showNothing('Nothing can be uploaded here.');
  showHead('Upload CSV: ' + plain(name), 'The first line has the names ' + listed(namesOf(relvar).map(plain))
    + ', in any order. Nothing is saved before you have seen it.');
  state.view = { path: 'upload/' + name };
  return void new Upload(relvar);
}

// What was entered: what needs a look, own entries, all entries, the history of one row, lists as they were.

// The rows of a change, each with what it `was` and is `now`; a row that keeps its key is one.
function changedRows(change) {
  const relvar = relvarNamed(change.relvar);
  const rows = cells => Object.fromEntries(relvar.sent.map((name, index) => [name, cells[index]]));
  const came = change.in.map(rows);
  const pairs = change.out.map(rows).map(was => {
    const at = came.findIndex(now => equalAt(relvar, now, keyOf(relvar)) === equalAt(relvar, was, keyOf(relvar)));
    return { relvar, was, now: at < 0 ? null : came.splice(at, 1)[0] };
  });
  return pairs.concat(came.map(now => ({ relvar, was: null, now })));
}
function rowChangeInWords({ relvar, was, now }) {
  if (!was) return 'Added ' + rowInWords(relvar, now, namesOf(relvar));
  if (!now) return 'Deleted ' + rowInWords(relvar, was, namesOf(relvar));
  const names = namesOf(relvar).filter(name => differsAt(relvar, was, now, name));
  return 'Changed ' + rowInWords(relvar, now, keyOf(relvar)) + ': ' + pairsInWords(relvar, now, names);
}
function changeInWords(change) {
  const rows = changedRows(change), count = rows.length + change.more;
  return plain(change.relvar) + ': ' + (count === 1 ? rowChangeInWords(rows[0]) : counted(count, 'row', 'rows') + ', '
    + rowChangeInWords(rows[0]) + ' ..');
}
// What a text was to do, in words; a text that no form wrote is shown as it is.
function wishInWords(text) {
  const wish = readStatement(state.schema.relvars, text);
  if (!wish) return withoutComments(text);
  const { relvar, does, rows, key, values } = wish, name = plain(relvar.name) + ': ';
  if (does === 'add' && rows.length > 1) return name + 'Add ' + counted(rows.length, 'row', 'rows');
  if (does === 'add') return name + 'Add ' + rowInWords(relvar, rows[0], namesOf(relvar));
  const whom = rowInWords(relvar, key, keyOf(relvar));
  if (does === 'remove') return name + 'Delete ' + whom;
  return name + 'Change ' + whom + ': ' + pairsInWords(relvar, values, Object.keys(values));
}
const withoutComments = text => text.replace(/^\s*(\/\*[^]*?\*\/\s*)*/, '');
const entryInWords = entry =>
  entry.changed && entry.changed.length ? entry.changed.map(changeInWords).join(' · ') : wishInWords(entry.text);
const CONFIRMED = 'The server knew by the token who wrote this';
// Who wrote an entry, with a mark if a server knew that.
const writer = ({ author, confirmed, stamp }) => [cut(author || 'site ' + siteOf(stamp), 40),
  confirmed ? sign(' ✓', CONFIRMED, 'good') : ''];

// Begins a page, and returns what its content goes into.
function showHead(words, about) {
  const holder = div('');
  draw(main, el('h2', {}, words), about ? para('quiet', about) : '', holder);
  return holder;
}
// Draws cards anew if they differ: what was open stays open, and the focus stays at its button.
function redraw(holder, cards) {
  const wordsOf = nodes => json([...nodes].map(node => node.textContent));
  if (wordsOf(cards) === wordsOf(holder.childNodes)) return;
  const stampOf = node => node.closest('[data-at]') && node.closest('[data-at]').dataset.at;
  const open = new Set([...holder.querySelectorAll('details[open]')].map(stampOf));
  const controls = card => [...card.querySelectorAll('button, summary')];
  const control = hasFocus(holder) ? focused() : null, at = control && stampOf(control);
  const index = at ? controls(control.closest('[data-at]')).indexOf(control) : -1;
  draw(holder, cards);
  for (const card of holder.querySelectorAll('[data-at]')) {
    for (const details of card.querySelectorAll('details')) details.open = open.has(card.dataset.at);
    if (at === card.dataset.at && controls(card)[index]) controls(card)[index].focus({ preventScroll: true });
  }
}
const cameInWords = ({ came }) => came ? dateInWords(came * 1000) + ' · ' : '';
function card(entry, kind, title, extra, ...children) {
  const when = entry.failure ? '' : cameInWords(entry) + entry.stamp;
  const top = div('top', title, span('', extra, ' ', span('quiet', when)));
  return el('section', { class: 'card ' + kind, 'data-at': entry.stamp }, top, children);
}
const statementOf = entry => details('For engineers', pre('', cut(entry.text, 2000)));

// ---- What needs a look

async function showLook() {
  const holder = showHead('Needs a look', 'What was saved here, and came out differently once other sites were met.');
  state.view = { path: 'look', refresh: () => state.form ? null : paint() };
  async function paint() {
    const cards = await Promise.all(troubles().map(lookCard));
    redraw(holder, cards.length ? cards : [div('empty', 'All is well: nothing needs a look.')]);
  }
  return paint();
}
const firstNow = changes => changes.flatMap(changedRows).find(row => row.now);
// What was wanted, and what is there now.
async function wishAndFact(entry) {
  const { relvar: other, now: there } = entry.was && firstNow(entry.changed) || {};
  const was = other && readChange(other, entry.was);
  if (was) return { relvar: other, wanted: was, now: there };
  const wish = readStatement(state.schema.relvars, entry.text);
  if (!wish) return {};
  const { relvar } = wish, wanted = wish.does === 'add' ? wish.rows[0] : { ...wish.key, ...wish.values };
  const keys = wish.does === 'add' && isKey(entry.breaks) ? relvar.keys : [keyOf(relvar)];
  for (const key of keys) {
    const now = await firstWhere(relvar, { ...wanted, ...wish.key }, key).catch(() => null);
    if (now) return { relvar, wish, wanted, now };
  }
  return { relvar, wish, wanted, now: null };
}
function enterAgain(entry, { wish, relvar, wanted, now }) {
  if (!wish || wish.does === 'remove') return go('engineer', new URLSearchParams({ text: withoutKey(entry.text) }));
  const replaces = { stamp: entry.stamp, row: wanted };
  const about = { words: 'Enter it again. It was: ' + wishInWords(entry.text), replaces };
  if (wish.does === 'change' && now) openForm(relvar, now, { ...about, given: wish.values });
  else openForm(relvar, null, { ...about, given: wanted });
}
async function lookCard(entry) {
  const found = await wishAndFact(entry), { relvar, wish, wanted, now } = found, isOther = !entry.reason;
  const isElsewhere = isOther && entry.changed.length > 0;
  const title = isElsewhere ? 'Saved, but otherwise than you saw'
    : isOther ? 'It has no effect any more' : entry.failure ? 'Not saved' : 'Not saved any more';
  const words = isElsewhere ? 'Another site was first, and the entry took what it says for that case.'
    : isOther ? 'Another site changed it first.'
      : entry.failure || 'Another site was first. ' + reasonInWords(entry.reason, entry.breaks);
  const columns = relvar ? el('div', { class: 'two' },
    div('', el('h4', {}, isElsewhere ? 'As you saw it' : 'Wanted'), rowList(relvar, wanted)),
    div('', el('h4', {}, 'There now'), now ? rowList(relvar, now, wanted) : para('quiet', 'nothing'))) : '';
  const leave = () => settle(entry.stamp).catch(toastFault), again = wish && wish.does === 'remove'
    ? 'Look at it' : 'Enter again with changes';
  const author = entry.author ? [writer(entry), ' · '] : '';
  return card(entry, 'hot', el('b', {}, title), author, para('bad', words), columns, statementOf(entry),
    bar(isElsewhere || !mayWrite() ? '' : button(again, () => enterAgain(entry, found), 'main'),
      mayWrite() || entry.failure ? button(isElsewhere ? 'I have seen it' : 'Leave it', leave) : ''));
}

// ---- Own entries, and all

function entryCard(entry, extra) {
  const isDone = !entry.reason, changed = entry.changed || [];
  const tag = !isDone ? span('tag bad', 'refused')
    : changed.length ? '' : span('tag', 'changed nothing');
  const title = el('span', { dir: 'auto' }, el('b', {}, writer(entry)), ' ', cut(entryInWords(entry), 240));
  return card(entry, '', title, [extra || '', ' ', tag], isDone ? ''
    : para('bad', reasonInWords(entry.reason, entry.breaks)), statementOf(entry));
}
const waitingCard = ({ text, failure }) => card({}, '', wishInWords(text),
  span('tag warn', failure ? 'not saved' : 'waits for the server'));
const placeTag = entry =>
  entry.number > sentNumber() ? span('tag warn', 'here only') : span('tag good', 'at another site');
async function ownEntries() {
  const isOwn = entry => siteOf(entry.stamp) === state.site.site;
  const author = authorName();
  if (author) return (await log({ author, last: 200 })).filter(isOwn);
  const [oldest] = [...mine].sort(isEarlier);
  return oldest ? (await log({ after: stampBefore(oldest) })).filter(entry => mine.includes(entry.stamp)) : [];
}
async function showMine() {
  const holder = showHead('My entries', authorName() ? 'What ' + authorName() + ' entered at this site, the last first.'
    : 'What was entered in this tab. Give your name (above) to find what you entered before.');
  let own = [], sent = 0;
  const paint = () => redraw(holder, outbox.length || own.length ? [...outbox.map(waitingCard),
    ...own.map(entry => entryCard(entry, placeTag(entry))).reverse()] : [div('empty', 'Nothing yet.')]);
  const refresh = async () => {
    own = await ownEntries().catch(() => own);
    paint();
  };
  // It is drawn again if a meeting has carried entries since.
  const tick = () => {
    if (sent !== sentNumber() && own.length) paint();
    sent = sentNumber();
  };
  state.view = { path: 'mine', refresh, tick };
  return refresh();
}
const hasWords = (entry, text) => json(entry).toLowerCase().includes(text.toLowerCase());
async function foundEntries(text, isRefused, last) {
  if (isRefused) return (await refusedEntries()).filter(entry => hasWords(entry, text)).slice(-last);
  return log(text ? { contains: text, last } : { last });
}
function showLog() {
  const holder = showHead('All entries', 'What was entered at all sites, in the order in which it counts, last first.');
  const box = searchBox('Search in all entries', '', () => paint());
  const status = el('span', { class: 'quiet', role: 'status' });
  const only = el('input', { type: 'checkbox', onchange: () => paint() });
  let last = 50;
  const further = button('Show more', () => {
    last += 100;
    paint();
  });
  async function paint() {
    try {
      const entries = await foundEntries(box.value.trim(), only.checked, last);
      further.hidden = entries.length < last;
      put(status, entries.length ? '' : 'Nothing fits.');
      redraw(holder, entries.map(entry => entryCard(entry)).reverse());
    } catch (fault) {
      put(status, fault.message);
    }
  }
  holder.before(bar(box, el('label', { class: 'tick' }, only, 'refused only'), status));
  holder.after(bar(further));
  state.view = { path: 'log', refresh: paint };
  return paint();
}

// ---- The history of a row, and a list as it was

function keyFilter(relvar, row) {
  const key = Object.fromEntries(keyOf(relvar).map(name => [name, row[name]]));
  return { relvar: relvar.name, key: json(key), last: 50 };
}
function historyCard(relvar, row, entry) {
  const rows = entry.changed.filter(change => change.relvar === relvar.name).flatMap(changedRows);
  const hasKey = other => other && !keyOf(relvar).some(name => differsAt(relvar, other, row, name));
  const isIt = found => hasKey(found.was) || hasKey(found.now);
  const { was, now } = rows.find(isIt) || {};
  const title = was ? now ? 'Changed' : 'Deleted' : now ? 'Added' : 'Changed with others';
  return card(entry, '', el('b', {}, title), [writer(entry), entry.author ? ', site ' + siteOf(entry.stamp) : ''],
    was && now ? changeList(relvar, was, now) : now ? rowList(relvar, now) : '');
}
function historyOf(relvar, row) {
  const holder = div('', 'Looking…');
  log(keyFilter(relvar, row)).then(entries => {
    const cards = entries.reverse().map(entry => historyCard(relvar, row, entry));
    draw(holder, cards.length ? cards : [para('quiet', 'It was there from the start.')]);
  }).catch(fault => put(holder, fault.message));
  return holder;
}
// The last entry, in the order in which they count, that had come by a time; else when the first one came of which that
// is known.
async function lastBy(seconds, filter) {
  let first = Infinity;
  for (let before = {};;) {
    const part = await log({ ...filter, ...before, last: 1000 }), known = part.filter(({ came }) => came !== null);
    const last = known.findLast(({ came }) => came <= seconds);
    if (last || !part.length) return { last, first };
    first = Math.min(first, ...known.map(({ came }) => came));
    before = { before: part[0].stamp };
  }
}
async function showPast(name) {
  const relvar = relvarNamed(name);
  if (!relvar) return showNothing('There is no list of this name.');
  const holder = showHead('As it was: ' + plain(name),
    'At a time, or after an entry, by what is known today: an entry that comes late counts too.');
  const of = relvar.isBase ? { relvar: name } : {}, status = el('span', { class: 'quiet', role: 'status' });
  const at = (stamp, t) => route(listPath(name), new URLSearchParams({ at: stamp, ...t ? { t } : {} }));
  const time = el('input', { type: 'datetime-local', 'aria-label': 'Date and time', id: 'time' }), now = new Date();
  // (the hour that it is, since this input has the time of the place)
  now.setMinutes(-now.getTimezoneOffset(), 0, 0);
  time.value = now.toISOString().slice(0, 16);
  const look = async () => {
    if (!time.value) return put(status, 'Choose a date and a time.');
    put(status, 'Looking…');
    const { last, first } = await lastBy(new Date(time.value) / 1000, of);
    if (last) location.hash = at(last.stamp, time.value);
    else put(status, first < Infinity ? 'It is known since ' + dateInWords(first * 1000) + ' when entries came.'
      : 'It is not known of any entry when it came.');
  };
  const box = searchBox('Search the entries', '', () => paint());
  state.view = { path: 'past/' + name };
  const paint = async () => {
    const text = box.value.trim(), contains = text ? { contains: text } : {};
    const entries = (await log({ last: 60, ...of, ...contains })).filter(entry => !entry.reason);
    draw(holder, entries.reverse().map(entry => bar(el('a', { class: 'button', href: at(entry.stamp) }, entry.stamp),
      span('', span('quiet', cameInWords(entry)), writer(entry), ' ', cut(entryInWords(entry), 140)))));
  };
  holder.before(bar(time, button('Show', () => look().catch(fault => put(status, fault.message)), 'main'), status),
    bar(box));
  return paint();
}

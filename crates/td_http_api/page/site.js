// The site: requests, what this tab entered, and what is asked again.

const EVERY = 3000;
const state = {
  site: null,        // the last answer of /api/site, and when it came
  received: 0,
  schema: null,
  vector: '',        // of which the lists are shown
  attention: [],     // what came to something else later, as the server marks it
  awaySince: 0,
  fault: '',         // why the last refresh failed, though the server answered
  why: '',           // why the site takes no entries
  view: null,        // what is shown: { path, refresh, tick, .. }
  form: null,
  author: kept('author', null),  // null until it was asked for, empty if nobody wanted to say
  client: { name: null, rights: 'all' },  // whose token this is, and what it may do
  isUploading: false,
};
// The stamps of what this tab entered.
let mine = kept('stamps', []);
// What has no answer yet, or was not taken when it was sent again: { key, text, author, waits, failure, breaks }.
let outbox = kept('outbox', []);

function keepEntries() {
  mine = mine.slice(-200);
  keep('stamps', mine);
  keep('outbox', outbox);
}

// The token is after the # of the address that the program printed, and stays in this tab alone.
function takeToken() {
  if (location.hash.length < 2 || location.hash.startsWith('#/')) return;
  sessionStorage.setItem('token', location.hash.slice(1));
  history.replaceState(null, '', location.pathname + '#/');
}

// The server does not answer, or cannot do now what is asked for.
class Away extends Error { }
function noAnswer() {
  throw new Away('The server does not answer.');
}

function request(path, body, tag) {
  const headers = { Authorization: 'Bearer ' + (sessionStorage.getItem('token') || '') };
  if (body) headers['Content-Type'] = 'application/json';
  if (tag) headers['If-None-Match'] = tag;
  // A line that swallows everything is one that does not answer.
  const signal = AbortSignal.timeout(30000), method = body ? 'POST' : 'GET';
  return fetch(path, { method, headers, body: body && json(body), cache: 'no-store', signal }).catch(noAnswer);
}
async function answerOf(reply) {
  const answer = await reply.json().catch(noAnswer);
  if (reply.ok) return answer;
  // (what the token may do was changed, perhaps)
  if (reply.status === 403) isClientKnown = false;
  if (reply.status === 401) throw new Error('Open this page by its whole address, with all that follows #.');
  if ([502, 503, 504].includes(reply.status)) throw new Away(answer.fault);
  throw Object.assign(new Error(answer.fault), { status: reply.status });
}
const call = async (path, body) => answerOf(await request(path, body));
const log = async filter => (await call('/api/log?' + new URLSearchParams(filter))).log;
const refusedEntries = async () => (await call('/api/refused')).refused;
const query = (text, members) => call('/api/query', { text, ...members });
const valueOf = async text => (await query(text)).value;
const rowOf = (heading, cells) => Object.fromEntries(heading.map((attribute, index) => [attribute.name, cells[index]]));
async function rowsOf(text, members) {
  const { total = 0, heading = [], rows = [] } = await query(text, members);
  return { total: Number(total), rows: rows.map(cells => rowOf(heading, cells)) };
}
async function firstWhere(relvar, row, names) {
  return (await rowsOf(whereEqual(relvar, row, names), { count: 1 })).rows[0] || null;
}

// ---- What is entered

function newKey() {
  const bytes = crypto.getRandomValues(new Uint8Array(16));
  return Array.from(bytes, byte => byte.toString(16).padStart(2, '0')).join('');
}
// The longest text that the server takes with a key, in bytes.
const LONGEST = 8169;
const bytesOf = text => new TextEncoder().encode(text).length;

// Issues a statement. It is in the outbox until it is answered, and is sent again under its key, so that it acts once.
async function issue(text) {
  const entry = { key: newKey(), text, author: authorName() };
  outbox.push(entry);
  keepEntries();
  return send(entry);
}
// What a statement would come to: `refused` says why not, also of one that is none. While the server is away nothing is
// known of that.
const tryOut = text => call('/api/try', { text }).catch(fault => {
  if (fault instanceof Away) return {};
  if (fault.status !== 422) throw fault;
  return { refused: fault.message };
});
function takeFromOutbox(entry) {
  outbox = outbox.filter(other => other.key !== entry.key);
  keepEntries();
}
async function send(entry) {
  let answer;
  try {
    answer = await call('/api/statement', { text: entry.text, key: entry.key });
  } catch (fault) {
    return noteFault(entry, fault);
  }
  return noteAnswer(entry, answer);
}
// An entry without an answer waits. One that waited and is not taken stays in the outbox until somebody saw that.
function noteFault(entry, fault) {
  const isAway = fault instanceof Away;
  if (!isAway && !entry.waits) {
    takeFromOutbox(entry);
    throw fault;
  }
  entry.waits = isAway;
  entry.failure = isAway ? '' : fault.message;
  keepEntries();
  paintState();
  return { waits: isAway, why: fault.message, refused: entry.failure };
}
function noteAnswer(entry, answer) {
  mine.push(answer.stamp);
  takeFromOutbox(entry);
  poll();
  if (answer.warning) toast(answer.warning);
  return { changed: [], ...answer };
}
async function sendAgain() {
  for (const entry of outbox.filter(waiting => waiting.waits)) {
    const answer = await send(entry);
    if (answer.waits) return;
    const { stamp, refused, breaks } = answer;
    if (stamp && refused) outbox.push({ ...entry, waits: false, failure: reasonInWords(refused, breaks), breaks });
    keepEntries();
    toast('An entry that waited ' + (refused ? 'was refused: see “Needs a look”.' : 'is saved now.'));
  }
}

// ---- What is asked again: one request, and nothing more while nothing changed

let isPolling = false, pollAgain = false, lastPoll = 0, siteTag = null, schemaText = '', isClientKnown = false;

async function poll() {
  pollAgain = isPolling;
  if (isPolling) return;
  isPolling = true;
  try {
    await refresh();
    state.fault = '';
  } catch (fault) {
    failRefresh(fault);
  }
  isPolling = false;
  paintState();
  if (pollAgain) poll();
}
function failRefresh(fault) {
  siteTag = null;
  isClientKnown = false;
  state.vector = '';
  if (!(fault instanceof Away)) state.fault = fault.message;
  else if (!state.awaySince) state.awaySince = Date.now();
  if (!state.schema) draw(main, note('warn', fault.message));
}
// The site, or null if what it shows is as it was.
async function changedSite() {
  const reply = await request('/api/site', null, siteTag);
  if (reply.status === 304) return null;
  const site = await answerOf(reply);
  siteTag = reply.headers.get('ETag');
  return site;
}
// Whose token this is: a server that does not know lets everyone do all.
async function readClient() {
  const reply = await request('/api/client'), was = state.client;
  state.client = reply.status === 404 ? { name: null, rights: 'all' } : await answerOf(reply);
  isClientKnown = true;
  if (!isSame(was, state.client)) show();
}
async function refresh() {
  if (!isClientKnown) await readClient();
  const site = await changedSite();
  state.awaySince = 0;
  lastPoll = Date.now();
  if (outbox.some(entry => entry.waits)) await sendAgain();
  if (site) await takeSite(site);
  if (state.view && state.view.tick) state.view.tick();
}
async function takeSite(site) {
  state.site = site;
  state.received = Date.now();
  state.why = site.open && !site.lacking ? '' : await whyClosed();
  if (state.isUploading) return;
  const vector = json(site.vector);
  if (vector !== state.vector) return readLists(vector);
  if (await readMarks()) await showChanges();
}
// Reads what needs a look; returns whether that is other than it was.
async function readMarks() {
  const was = state.attention;
  state.attention = (await call('/api/attention')).attention;
  return !isSame(was, state.attention);
}
async function whyClosed() {
  const reply = await request('/api/health');
  return (await reply.json()).fault || '';
}
async function readLists(vector) {
  schemaText = schemaText || json(await call('/api/schema'));
  const [{ relvars }] = await Promise.all([call('/api/relvars?counts'), readMarks()]);
  const counts = relvars.map(relvar => [relvar.name, relvar.tuples]);
  keep('shown', { schema: schemaText, counts, site: state.site, client: state.client });
  takeSchema(schemaText, counts);
  state.vector = vector;
  await showChanges();
}
// The lists are those of the schema that is shown already, if it is the same.
let schemaShown = '';
function takeSchema(text, counts) {
  if (text !== schemaShown) state.schema = makeSchema(JSON.parse(text));
  schemaShown = text;
  for (const [name, count] of counts) if (state.schema.relvars.has(name)) relvarNamed(name).count = count;
}
async function showChanges() {
  paintNav();
  if (state.view && state.view.refresh) await state.view.refresh();
  if (state.form) await state.form.refresh();
}
const ownNumber = () => Number(state.site.vector[state.site.site] || 0);

// ---- What needs a look

const isSame = (one, other) => json(one) === json(other);
// What waited and was not taken is known here; what came to something else later, the server marks.
const troubles = () => [...outbox.filter(entry => entry.failure).map(entry =>
  ({ ...entry, stamp: entry.key, reason: entry.failure })), ...state.attention];
// Takes a card away.
async function settle(stamp) {
  takeFromOutbox({ key: stamp });
  const others = state.attention.filter(entry => entry.stamp !== stamp);
  if (others.length < state.attention.length) await call('/api/acknowledge', { stamp });
  state.attention = others;
  paintState();
  paintNav();
  if (currentPath() === 'look') show();
}

// ---- Whom the site met

const elapsed = () => (Date.now() - state.received) / 1000;
const secondsSince = meeting => meeting.seconds + elapsed();
const metSites = () => state.site.peers.filter(peer => peer.met !== null);
const lastMet = () => Math.min(Infinity, ...metSites().map(peer => peer.met)) + elapsed();
// Up to which number own entries are at another site for certain.
const sentNumber = () => Math.max(0, ...state.site.peers.map(peer => Number(peer.vector[state.site.site] || 0)));
const unsent = () => ownNumber() - sentNumber();
const LONG = 600;
function linkWords() {
  if (state.awaySince) return ['bad', 'No answer since ' + timeOfDay(state.awaySince)];
  if (state.fault) return ['bad', state.fault];
  if (!state.site) return ['', '…'];
  if (!state.site.open || state.site.lacking) return ['bad', 'Nothing can be saved now'];
  const met = lastMet(), waiting = unsent();
  const here = waiting ? ' · ' + counted(waiting, 'entry is', 'entries are') + ' here only' : '';
  const rest = waiting ? here : ' · all sent';
  if (met === Infinity) return [state.site.peers.length ? 'warn' : '', 'No other site was met yet' + rest];
  if (met > LONG) return ['warn', 'Alone for ' + duration(met) + rest];
  return [metSites().some(peer => peer.failed) ? 'warn' : '', 'Met ' + ago(met) + rest];
}

// ---- What is said at the top

const KEEPER = ' Tell the one who looks after the server.';
function laterWords() {
  const count = outbox.filter(entry => entry.waits).length;
  const waiting = count ? ' ' + counted(count, 'entry waits', 'entries wait') + '.' : '';
  return ' You can go on: what you enter is kept in this tab, and is sent later.' + waiting;
}
function clashes(alarms) {
  return [...new Set(alarms.map(alarm => alarm.site))].map(site => {
    const addresses = alarms.filter(alarm => alarm.site === site).map(alarm => alarm.address);
    const words = 'Two programs have written as site ' + site + ', or its file is damaged. Entries of site ' + site
      + ' are not exchanged with ' + listed(addresses) + ' any more.' + KEEPER;
    return { kind: 'bad', words, site };
  });
}
function fullness({ held, limit }) {
  if (!limit || held < limit * 0.9) return [];
  if (held >= limit) return [{ kind: 'bad', words: 'This site is full: nothing more can be entered.' + KEEPER }];
  const words = 'This site is nearly full: ' + number(held) + ' of ' + number(limit) + ' entries are used.' + KEEPER;
  return [{ kind: 'warn', words }];
}
// Why the site takes no entries.
function closure(site) {
  if (site.open && !site.lacking) return [];
  const words = site.open ? 'This site lacks entries that it made before. It must meet another one before it saves any.'
    : 'This site cannot write to its disk.' + KEEPER;
  const reason = state.why ? ' (The server says: ' + state.why + ')' : '';
  return [{ kind: 'bad', words: words + laterWords() + reason }];
}
function solitude(site) {
  const met = lastMet();
  if (met < LONG || met === Infinity) return [];
  const words = 'Alone for ' + duration(met) + ': other sites do not see what is entered here, nor this site theirs.';
  return [{ kind: 'warn', words }];
}
function notices() {
  const site = state.site, all = mayWrite() ? [] : [{ kind: '', words: 'You may look, not write.' }];
  if (state.awaySince) {
    const words = 'The server has not answered since ' + timeOfDay(state.awaySince) + '.';
    all.push({ kind: 'bad', words: words + laterWords() });
  }
  if (!site) return all;
  all.push(...clashes(site.alarms), ...closure(site), ...fullness(site), ...solitude(site));
  if (site.meetings.some(meeting => meeting.words.includes('WARNING') && secondsSince(meeting) < LONG)) {
    all.push({ kind: 'warn', words: 'A meeting with another site gave a warning: see “Other sites”.' });
  }
  return all;
}
async function reportClash(site) {
  await call('/api/alarms/acknowledge', { site }).catch(toastFault);
  poll();
}
let noticesText = '';
function paintNotices() {
  const all = notices(), text = json(all);
  if (text === noticesText) return;
  noticesText = text;
  draw(byId('notices'), all.map(({ kind, words, site }) =>
    note(kind, words, site && mayWrite() ? [' ', button('It is reported', () => reportClash(site))] : '')));
}
function paintState() {
  const [kind, words] = linkWords(), count = state.schema ? troubles().length : 0;
  const line = byId('state');
  if (line.className !== kind) line.className = kind;
  put(line, words);
  if (state.site) {
    put(byId('name'), 'Site ' + state.site.site);
    put(document.querySelector('title'), 'Site ' + state.site.site);
  }
  const alarm = byId('alarm');
  if (alarm.hidden !== !count) alarm.hidden = !count;
  put(alarm, count + (count === 1 ? ' needs a look' : ' need a look'));
  put(byId('who'), authorName() || 'Your name');
  paintNotices();
}

// ---- Who writes: the token says that, or it is asked once, before the first entry

const mayWrite = () => state.client.rights !== 'read';
const authorName = () => state.client.name || state.author;
const needName = async () => { if (authorName() === null) await askName(); };
// (the server signs what comes with a token of a name)
const signed = text => (state.author && !state.client.name ? '/* ' + state.author + ' */ ' : '') + text;

// The name is in a comment: it has no sign that ends that, none that hides, and no more than 40.
const cleanName = text => text.replace(HIDDEN, ' ').replace(/\*\/|\/\*/g, ' ').trim().slice(0, 40);
function takeName(box) {
  if (box.returnValue === 'ok') state.author = cleanName(byId('nameinput').value);
  if (box.returnValue === 'no') state.author = '';
  box.returnValue = '';
  if (state.author !== null) keep('author', state.author);
  paintState();
}
function askName() {
  if (state.client.name) return toast('This name is that of your token.');
  const box = byId('ask');
  byId('nameinput').value = state.author || '';
  box.showModal();
  byId('nameinput').focus();
  return new Promise(done => { box.onclose = () => { takeName(box); done(); }; });
}

// The list at the side, and which page is shown.

function showNothing(words) {
  state.view = null;
  draw(main, div('empty', words));
}
function navLink(path, words) {
  return el('a', { href: '#/' + path }, span('', words), el('span'));
}
const listLink = ({ name }) => navLink(listPath(name), plain(name));
function makeNav() {
  const { bases, virtual } = state.schema;
  draw(nav, el('h2', {}, 'Lists'), bases.map(listLink),
    virtual.length ? el('h2', {}, 'That follow from them') : '', virtual.map(listLink), el('h2', {}, 'Work'),
    navLink('look', 'Needs a look'), navLink('mine', 'My entries'), navLink('log', 'All entries'),
    navLink('sites', 'Other sites'), navLink('engineer', 'Query or statement'));
}
function navCount(path) {
  if (path === 'look') return troubles().length || '';
  if (path === 'mine') return outbox.length || '';
  const relvar = path.startsWith('list/') ? relvarNamed(path.slice(5)) : null;
  return relvar && relvar.count !== null ? number(relvar.count) : '';
}
let navSchema = null;
function paintNav() {
  if (!state.schema) return;
  if (navSchema !== state.schema) makeNav();
  navSchema = state.schema;
  const here = currentPath().replace(/^(upload|past)\//, 'list/');
  for (const node of nav.querySelectorAll('a')) {
    const path = decodeURIComponent(node.getAttribute('href').slice(2)), count = String(navCount(path));
    if (path === here) node.setAttribute('aria-current', 'page');
    else node.removeAttribute('aria-current');
    put(node.lastChild, count);
    node.lastChild.className = path === 'look' && count ? 'hot' : '';
  }
}

function currentPath() {
  try { return decodeURIComponent(location.hash.slice(2).split('?')[0]); } catch { return ''; }
}
const currentParams = () => new URLSearchParams(location.hash.split('?').slice(1).join('?'));
const PAGES = new Map([['list', showList], ['look', showLook], ['mine', showMine], ['log', showLog],
  ['sites', showSites], ['engineer', showEngineer], ['upload', showUpload], ['past', showPast]]);
function setMenu(isOpen) {
  nav.classList.toggle('open', isOpen);
  byId('menu').setAttribute('aria-expanded', String(isOpen));
}
function show() {
  if (!state.schema) return;
  const path = currentPath(), [kind, ...rest] = path.split('/'), was = state.view && state.view.path;
  setMenu(false);
  const first = state.schema.bases[0] || state.schema.virtual[0];
  if (!kind && first) return go(listPath(first.name), null, true);
  if (state.form && was !== path && !state.form.isTouched) closeForm();
  const page = PAGES.get(kind) || (() => showNothing('There is no such page.'));
  Promise.resolve(page(rest.join('/'), currentParams())).catch(toastFault);
  paintNav();
  if (was !== path) main.scrollTop = 0;
}

function pressKey(event) {
  if (event.key === 'Escape' && nav.classList.contains('open')) {
    setMenu(false);
    byId('menu').focus();
  } else if (event.key === 'Escape' && state.form && !byId('ask').open) leaveForm();
  if (event.ctrlKey || event.metaKey || event.altKey || /INPUT|TEXTAREA|SELECT/.test(event.target.tagName)) return;
  const node = event.key === '/' ? byId('search') : event.key.toLowerCase() === 'n' ? byId('add') : null;
  if (!node) return;
  event.preventDefault();
  if (event.key === '/') node.focus();
  else node.click();
}
function listen() {
  byId('menu').onclick = () => {
    setMenu(!nav.classList.contains('open'));
    if (nav.classList.contains('open')) nav.querySelector('a').focus();
  };
  byId('state').onclick = () => { location.hash = '#/sites'; };
  byId('alarm').onclick = () => { location.hash = '#/look'; };
  byId('who').onclick = askName;
  byId('nameinput').onkeydown = event => {
    if (event.key !== 'Enter') return;
    event.preventDefault();
    byId('nameok').click();
  };
  addEventListener('hashchange', show);
  addEventListener('keydown', pressKey);
  addEventListener('beforeunload', event => { if (outbox.length || state.isUploading) event.preventDefault(); });
  const isVisible = () => document.visibilityState === 'visible';
  document.onvisibilitychange = () => { if (isVisible()) poll(); };
  setInterval(() => { if (isVisible() && Date.now() - lastPoll > EVERY - 200) poll(); }, EVERY);
}

function openDraft() {
  const draft = kept('draft', null), relvar = draft && relvarNamed(draft.relvar);
  if (!relvar) return;
  if (currentPath() !== 'list/' + relvar.name) go(listPath(relvar.name), null, true);
  openForm(relvar, draft.old, { typed: draft.typed, replaces: draft.replaces,
    words: 'What you had begun to enter is still here.' });
}
// What this tab knew before a reload is shown at once, also while the server is away.
function showKnown() {
  const known = kept('shown', null);
  if (!known) return;
  takeSchema(known.schema, known.counts);
  state.site = { ...known.site, meetings: [], alarms: [] };
  state.client = known.client;
}
async function start() {
  takeToken();
  listen();
  for (const entry of outbox) entry.waits = true;
  showKnown();
  paintState();
  for (let begun = false; !begun;) {
    if (state.schema) {
      show();
      openDraft();
      begun = true;
    }
    await poll();
    if (!state.schema) await pause(500);
  }
}
start();

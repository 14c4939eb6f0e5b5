// The other sites, and what came of meetings.

async function meet(address, node) {
  node.disabled = true;
  try {
    await call('/api/meet', { address });
    toast('The other site is called.');
    setTimeout(poll, 700);
  } catch (fault) {
    toastFault(fault);
  }
  node.disabled = false;
}
function peerCard({ site, address, called, met, failed }) {
  const name = site ? 'Site ' + site : address;
  const act = button('Meet now', event => meet(address, event.target), '', { 'aria-label': 'Meet now: ' + name });
  return div('card', div('top', el('b', {}, name), called && state.client.rights === 'all' ? act : ''),
    para('', met === null ? 'Not met yet' : 'Met ' + ago(met + elapsed()),
      failed ? span('bad', ' · ' + counted(failed, 'call', 'calls') + ' failed since') : ''));
}
function meetingLine(meeting) {
  return el('tr', {}, el('td', {}, (meeting.called ? 'to ' : 'from ') + meeting.peer),
    el('td', {}, ago(secondsSince(meeting))), el('td', { class: meeting.met ? '' : 'bad' }, cut(meeting.words, 600)));
}
function siteCards() {
  const { held, limit, peers, meetings } = state.site, waiting = unsent(), [kind, words] = linkWords();
  const sent = waiting ? counted(waiting, 'entry of this site waits', 'entries of this site wait') + ' to be sent.'
    : 'Nothing waits to be sent.';
  return [note(kind || 'good', words), para('', sent + ' ', el('span', { class: 'quiet' },
    counted(held, 'entry is', 'entries are') + ' kept here, and there is room for ' + number(limit - held) + ' more.')),
  ...peers.map(peerCard), details('Meetings, for engineers',
    tableOf([], el('tbody', {}, meetings.map(meetingLine))))];
}
function showSites() {
  const holder = showHead('Other sites');
  let shown = '';
  const tick = () => {
    const cards = siteCards(), text = cards.map(node => node.textContent).join();
    if (text === shown) return;
    const label = hasFocus(holder) ? focused().getAttribute('aria-label') : '';
    const isOpen = Boolean(holder.querySelector('[open]'));
    draw(holder, cards);
    holder.querySelector('details').open = isOpen;
    shown = text;
    for (const node of holder.querySelectorAll('button')) if (node.getAttribute('aria-label') === label) node.focus();
  };
  state.view = { path: 'sites', tick };
  tick();
}

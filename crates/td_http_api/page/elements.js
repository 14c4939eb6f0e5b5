// Elements, words of numbers and times, and what this tab keeps.

const byId = id => document.getElementById(id);
const [main, panel, nav] = ['main', 'panel', 'nav'].map(byId);
const focused = () => document.activeElement;
const json = value => JSON.stringify(value);

// Signs that hide or turn text are shown by their numbers. Every text of the page passes through here.
const HIDDEN = /[\u0000-\u0008\u000b-\u001f\u007f-\u009f\u00ad\u200b\u2028-\u202e\u2060-\u206f\ufeff]/g;
function visible(text) {
  return String(text).replace(HIDDEN, sign =>
    '[U+' + sign.codePointAt(0).toString(16).toUpperCase().padStart(4, '0') + ']');
}
const cut = (text, most) => text.length > most ? text.slice(0, most) + '…' : text;

function setProperty(node, name, value) {
  if (name.startsWith('on')) node.addEventListener(name.slice(2), value);
  else if (name === 'class') node.className = value;
  else if (name in node && !name.includes('-')) node[name] = name === 'title' ? visible(value) : value;
  else node.setAttribute(name, value === true ? '' : visible(value));
}
// A node gets these children: elements and texts, never markup.
function draw(node, ...children) {
  const there = children.flat(Infinity).filter(child => child !== null && child !== undefined && child !== false);
  node.replaceChildren(...there.map(child => child instanceof Node ? child : visible(child)));
}
// An element with properties, attributes and listeners (`onclick`).
function el(tag, properties, ...children) {
  const node = document.createElement(tag);
  for (const [name, value] of Object.entries(properties || {})) {
    if (value !== null && value !== undefined && value !== false) setProperty(node, name, value);
  }
  draw(node, children);
  return node;
}
const div = (kind, ...children) => el('div', { class: kind }, ...children);
const span = (kind, ...children) => el('span', { class: kind }, ...children);
const para = (kind, ...children) => el('p', { class: kind }, ...children);
const pre = (kind, ...children) => el('pre', { class: kind }, ...children);
const button = (words, act, kind, more) => el('button', { type: 'button', class: kind, onclick: act, ...more }, words);
const link = (path, words, kind) => el('a', { class: kind || 'button', href: '#/' + path }, words);
const bar = (...children) => div('bar', ...children);
const note = (kind, ...children) => div('note ' + kind, ...children);
const gap = () => span('grow');
const details = (words, ...children) => el('details', {}, el('summary', {}, words), ...children);
// A sign, with what it means in words.
const sign = (mark, words, kind) =>
  el('span', { class: kind, title: words, role: 'img', 'aria-label': '(' + words + ')' }, mark);
const tableOf = (head, body) => div('wide', el('table', {}, el('thead', {}, el('tr', {}, head)), body));
const selectOf = (label, options) =>
  el('select', { 'aria-label': label }, options.map(([value, words]) => el('option', { value }, words)));
// A box that searches when the fingers rest.
function searchBox(label, value, search) {
  const box = el('input', { type: 'search', class: 'grow', placeholder: 'Search', 'aria-label': label, value });
  let timer = 0;
  box.oninput = () => {
    clearTimeout(timer);
    timer = setTimeout(() => search(box.value.trim()), 80);
  };
  return box;
}
// A text is replaced only where it differs, so that nothing is drawn or read aloud again.
function put(node, text) {
  const words = visible(text);
  if (node.textContent !== words) node.textContent = words;
}
const hasFocus = node => node.contains(focused());

const number = value => Number(value).toLocaleString('en');
const counted = (count, one, many) => number(count) + ' ' + (Number(count) === 1 ? one : many);
function duration(seconds) {
  if (seconds < 5400) return Math.round(seconds / 60) + ' min';
  return seconds < 172800 ? Math.round(seconds / 3600) + ' h' : Math.round(seconds / 86400) + ' days';
}
const ago = seconds => seconds < 60 ? 'just now' : duration(seconds) + ' ago';
const dateInWords = time => new Date(time).toLocaleString([], { dateStyle: 'short', timeStyle: 'short' });
const timeOfDay = time => new Date(time).toLocaleTimeString([], { hour: '2-digit', minute: '2-digit' });
const pause = milliseconds => new Promise(done => setTimeout(done, milliseconds));

// What this tab keeps over a reload. Where the browser keeps nothing, all goes on without it.
function kept(name, otherwise) {
  try { return JSON.parse(sessionStorage.getItem(name)) ?? otherwise; } catch { return otherwise; }
}
function keep(name, value) {
  try { sessionStorage.setItem(name, json(value)); } catch { /* it is full, or not allowed */ }
}

let toastTimer = 0;
function toast(words) {
  put(byId('toast'), words);
  clearTimeout(toastTimer);
  toastTimer = setTimeout(() => put(byId('toast'), ''), 6000);
}
const toastFault = fault => toast(fault.message);

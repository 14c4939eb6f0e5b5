// What the script defines, as the page uses it, and the plain words for it.

const labels = new Map();
const relvarNamed = name => state.schema.relvars.get(name);

// A name as people read it: as a label of the script has it, else in small letters.
function plain(name) {
  if (labels.has(name)) return labels.get(name);
  const words = name.replaceAll('_', ' ').replaceAll('#', ' no.').trim();
  const rest = words === words.toUpperCase() ? words.slice(1).toLowerCase() : words.slice(1);
  return words.charAt(0).toUpperCase() + rest;
}
// The same within a sentence. A label that begins as `BP` keeps its capitals.
function inSentence(name) {
  const words = plain(name);
  return /^.[A-Z]/.test(words) ? words : words.charAt(0).toLowerCase() + words.slice(1);
}
function listed(words, last) {
  return words.length < 2 ? words.join() : words.slice(0, -1).join(', ') + ' ' + (last || 'and') + ' ' + words.at(-1);
}

function makeRelvar(told) {
  const types = new Map(told.heading.map(attribute => [attribute.name, attribute.type]));
  const sent = [...types.keys()], order = told.order.every(name => types.has(name)) ? told.order : sent;
  const attributes = order.map(name => ({ name, type: types.get(name) }));
  const isBase = told.kind === 'base';
  return { name: told.name, isBase, attributes, types, sent, keys: told.keys, text: told.text || '', references: [],
    count: null, like: null };
}
// A virtual relvar has the order of the first base relvar that it names.
function orderLike(relvar, bases) {
  const used = new Set(wordsOf(relvar.text)), like = bases.find(({ name }) => used.has(name));
  if (!like) return;
  const names = namesOf(like);
  const rank = ({ name }) => names.includes(name) ? names.indexOf(name) : names.length;
  relvar.attributes.sort((one, other) => rank(one) - rank(other));
  relvar.like = like.name;
}
function addReference(relvars, constraint) {
  const { reference } = constraint;
  // (one at no attribute is a rule as others are)
  if (!reference || !reference.attributes.length) return void (constraint.reference = null);
  reference.names = reference.attributes;
  relvars.get(reference.from).references.push(reference);
}
// `VAR FREE VIRTUAL ( BED NOT MATCHING BOOKED )`: which of BED is free for BOOKED.
function addFree(relvars, relvar) {
  const found = /^\(\s*([\w#]+)\s+NOT\s+MATCHING\s+([\w#]+)\s*\)$/i.exec(relvar.text);
  if (!found || !relvars.has(found[2])) return;
  for (const reference of relvars.get(found[2]).references) {
    if (reference.to === found[1]) reference.free = relvar.name;
  }
}
function makeSchema(told) {
  labels.clear();
  for (const [name, words] of Object.entries(told.labels)) labels.set(name, visible(cut(words, 60)));
  const types = new Map(told.types.map(type => [type.name, type]));
  const relvars = new Map(told.relvars.map(relvar => [relvar.name, makeRelvar(relvar)]));
  const all = [...relvars.values()], bases = all.filter(relvar => relvar.isBase);
  const virtual = all.filter(relvar => !relvar.isBase);
  for (const relvar of virtual) orderLike(relvar, bases);
  for (const constraint of told.constraints) addReference(relvars, constraint);
  for (const relvar of virtual) addFree(relvars, relvar);
  return { types, relvars, bases, virtual, constraints: told.constraints };
}

// ---- Values in words

const typeNamed = type => state.schema.types.get(type);
const isPlain = type => isText(type) || type === 'INTEGER' || type === 'BOOLEAN';
function isNumber(type) {
  const defined = typeNamed(type);
  return type === 'INTEGER' || Boolean(defined && defined.components.length === 1
    && defined.components[0].type === 'INTEGER');
}
// A relation or a tuple within a value: its names and values, without the heading.
function nestedInWords(text) {
  const source = new Source(text), isBare = source.word(0) === 'TUPLE' || source.word(2) === 'TUPLE';
  const tokens = wordsOf(text).slice(isBare ? 0 : source.end(2) + 1);
  const words = tokens.filter(token => !/^(TUPLE|RELATION|[{}])$/i.test(token)).map(token =>
    token.startsWith("'") ? cellOf('CHAR', token) : /^[a-z]/i.test(token) ? inSentence(token) : token);
  return words.join(' ').replaceAll(' ,', ',') || 'none';
}
function definedInWords(type, cell) {
  const cells = componentCells(type, cell);
  if (!cells) return String(cell);
  const words = cells.map((part, index) => inWords(type.components[index].type, part));
  return words.length === 1 ? words[0] + ' ' + inSentence(type.components[0].name) : words.join(' / ');
}
// A value as people read it: `300 mg`, `120 / 80`, `yes`.
function inWords(type, cell) {
  if (type === 'BOOLEAN') return cell ? 'yes' : 'no';
  if (isPlain(type)) return String(cell);
  const defined = typeNamed(type);
  return defined ? definedInWords(defined, cell) : nestedInWords(String(cell));
}
const valueInWords = (relvar, row, name) => inWords(relvar.types.get(name), row[name]);
const pairsInWords = (relvar, row, names) =>
  listed(names.map(name => inSentence(name) + ' ' + valueInWords(relvar, row, name)));
const rowInWords = (relvar, row, names) =>
  names.filter(name => name in row).map(name => valueInWords(relvar, row, name)).join(', ');
// Whom a row means, beside one of its values: `Änne, born 1950`.
function othersInWords(relvar, row, name) {
  const others = relvar.attributes.filter(attribute => attribute.name !== name).slice(0, 3);
  return others.map(({ name: other, type }) =>
    (isText(type) ? '' : inSentence(other) + ' ') + inWords(type, row[other])).join(', ');
}

const COMPARISONS = {
  '>': 'more than', '>=': 'at least', '<': 'less than', '<=': 'at most', '<>': 'not', '=': 'exactly' };
function comparisonInWords(type, text) {
  const found = /^([\w#]+)\s*(<=|>=|<>|<|>|=)\s*([\w#-]+)$/.exec(text.trim());
  if (!found) return null;
  const name = type.components.length > 1 ? inSentence(found[1]) + ' ' : '';
  return name + COMPARISONS[found[2]] + ' ' + (/^[A-Za-z]/.test(found[3]) ? inSentence(found[3]) : found[3]);
}
// The rule of a type in words, where it is that simple: `more than 0, at most 1000`.
function ruleInWords(type) {
  if (!type || !type.constraint) return '';
  const words = type.constraint.split(/\s+AND\s+/i).map(text => comparisonInWords(type, text));
  return words.every(Boolean) ? listed(words) : type.constraint;
}

// ---- Why an entry is refused, in words

const constraintNamed = name => state.schema.constraints.find(constraint => constraint.name === name);
const existsInWords = (relvar, row, names) => 'There is already an entry in “' + plain(relvar.name) + '”'
  + (names.length ? ' with ' + pairsInWords(relvar, row, names) : '') + '.';
const missesInWords = (reference, relvar, row) =>
  'There is no entry in “' + plain(reference.to) + '” with ' + pairsInWords(relvar, row, reference.names) + '.';
const ruleNotAllowed = constraint => 'The rule “' + plain(constraint.name) + '” does not allow this.';

function brokenKeyInWords(name) {
  const relvar = relvarNamed(name);
  const keys = relvar ? relvar.keys.map(key => listed(key.map(inSentence))) : [];
  return 'There is already an entry in “' + plain(name) + '” with the same ' + (listed(keys, 'or') || 'values') + '.';
}
function brokenConstraintInWords(name) {
  const constraint = constraintNamed(name);
  if (!constraint || !constraint.reference) return ruleNotAllowed({ name });
  const { from, to, names } = constraint.reference;
  return 'Each entry in “' + plain(from) + '” needs one in “' + plain(to) + '” with the same '
    + listed(names.map(inSentence)) + '.';
}
const RAISED = { selector: 'A value is outside what is allowed for it.', empty: 'Nothing is free any more.',
  overflow: 'A number is too large.' };
function reasonInWords(reason, breaks) {
  if (breaks) return (isKey(breaks) ? brokenKeyInWords : brokenConstraintInWords)(breaks.name);
  const raised = /^raised (\w+)/.exec(reason);
  return raised && RAISED[raised[1]] || reason;
}
const isKey = breaks => Boolean(breaks) && breaks.kind === 'key';

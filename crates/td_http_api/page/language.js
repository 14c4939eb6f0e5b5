// The language: tokens of a text, literals of values, the statements that forms write, and what such a one was to do.

const TOKEN = /\s+|\/\*[^]*?\*\/|'(?:[^']|'')*'|[A-Za-z0-9_#]+|:=|<=|>=|<>|\|\||[^]/g;
const BRACKETS = { '(': 1, '{': 1, ')': -1, '}': -1 };

// A text with its tokens, without spaces and comments. The parts of it are named by the indexes of tokens.
class Source {
  constructor(text) {
    this.text = text;
    this.tokens = [...text.matchAll(TOKEN)].filter(token => !/^(?:\s|\/\*)/.test(token[0]));
  }
  name(index) {
    return index < this.tokens.length ? this.tokens[index][0] : '';
  }
  word(index) {
    return this.name(index).toUpperCase();
  }
  slice(from, to) {
    if (to <= from) return '';
    const last = this.tokens[to - 1];
    return this.text.slice(this.tokens[from].index, last.index + last[0].length);
  }
  // Where the part from an index ends: at one of these words outside brackets, or at the bracket around the part.
  end(from, ...stops) {
    let depth = 0;
    for (let index = from; index < this.tokens.length; index++) {
      if (depth === 0 && stops.includes(this.word(index))) return index;
      depth += BRACKETS[this.word(index)] || 0;
      if (depth < 0) return index;
    }
    return this.tokens.length;
  }
  // The parts between commas, each as its first index and that after its last one.
  parts(from, to) {
    const parts = [];
    while (from < to) {
      const end = Math.min(this.end(from, ','), to);
      parts.push([from, end]);
      from = end + 1;
    }
    return parts;
  }
}

const wordsOf = text => new Source(text).tokens.map(([token]) => token);

// A cell is what the API sends for a value: a text, a number or its digits, a truth value, else the literal's text.
const isText = type => type === 'CHAR';
const LEAST = -(2n ** 63n);
const isInteger = text => /^-?\d{1,19}$/.test(text) && BigInt(text) >= LEAST && BigInt(text) < -LEAST;
const quoted = text => "'" + String(text).replaceAll("'", "''") + "'";

function integerLiteral(cell) {
  const value = BigInt(cell);
  if (value === LEAST) return '( -9223372036854775807 - 1 )';
  return value < 0n ? '( ' + value + ' )' : String(value);
}
function literalOf(type, cell) {
  if (isText(type)) return quoted(cell);
  if (type === 'INTEGER') return integerLiteral(cell);
  if (type === 'BOOLEAN') return cell ? 'TRUE' : 'FALSE';
  return String(cell);
}
function integerCell(text) {
  const bare = text.replace(/[()\s]/g, '');
  const value = bare === '-9223372036854775807-1' ? LEAST : BigInt(bare);
  return value >= -(2n ** 53n) && value <= 2n ** 53n ? Number(value) : String(value);
}
function cellOf(type, literal) {
  const text = literal.trim();
  if (isText(type)) return text.slice(1, -1).replaceAll("''", "'");
  if (type === 'INTEGER') return integerCell(text);
  if (type === 'BOOLEAN') return text.toUpperCase() === 'TRUE';
  return text;
}
// The components of a value of a type of the script, as cells; null if the text is no selector of it.
function componentCells(type, cell) {
  const source = new Source(String(cell));
  if (source.word(1) !== '(') return null;
  const parts = source.parts(2, source.end(2));
  if (parts.length !== type.components.length) return null;
  return parts.map(([from, to], index) => cellOf(type.components[index].type, source.slice(from, to)));
}
function selectorOf(type, cells) {
  const literals = type.components.map((component, index) => literalOf(component.type, cells[index]));
  return type.possrep + ' ( ' + literals.join(', ') + ' )';
}

// ---- Statements

const literalAt = (relvar, row, name) => literalOf(relvar.types.get(name), row[name]);
const differsAt = (relvar, one, other, name) => literalAt(relvar, one, name) !== literalAt(relvar, other, name);
const namesOf = relvar => relvar.attributes.map(attribute => attribute.name);
const keyOf = relvar => relvar.keys[0] || namesOf(relvar);
// The key comes first, so that the condition is a search by it.
const keyFirst = relvar => keyOf(relvar).concat(namesOf(relvar).filter(name => !keyOf(relvar).includes(name)));
const equalAt = (relvar, row, names) =>
  names.map(name => name + ' = ' + literalAt(relvar, row, name)).join(' AND ') || 'TRUE';
const tupleOf = (relvar, row, names) =>
  'TUPLE { ' + names.map(name => name + ' ' + literalAt(relvar, row, name)).join(', ') + ' }';
const rowText = (relvar, row) => tupleOf(relvar, row, namesOf(relvar));
const relationOf = tuples => 'RELATION { ' + tuples.join(', ') + ' }';
const where = (relvar, condition) => relvar.name + ' WHERE ' + condition;
const whereEqual = (relvar, row, names) => where(relvar, equalAt(relvar, row, names));

const insertionOf = (relvar, ...rows) =>
  'INSERT ' + relvar.name + ' ' + relationOf(rows.map(row => rowText(relvar, row))) + ';';
// An addition that takes another free value at one attribute if another tuple has this one.
function insertionOrNext(relvar, row, name, free) {
  const pairs = namesOf(relvar).map(other =>
    other + ' ' + (other === name ? 'MIN ( ' + free + ', ' + name + ' )' : literalAt(relvar, row, other)));
  const next = 'INSERT ' + relvar.name + ' ' + relationOf(['TUPLE { ' + pairs.join(', ') + ' }']) + ';';
  const isFree = 'IS_EMPTY ( ' + whereEqual(relvar, row, [name]) + ' )';
  return 'IF ' + isFree + ' THEN ' + insertionOf(relvar, row) + ' ELSE ' + next + ' END IF;';
}
// An addition unless an earlier one, which is refused for now, is done after all at its position in the order.
function insertionUnless(relvar, row, earlier) {
  const isAbsent = 'IS_EMPTY ( ' + whereEqual(relvar, earlier, keyFirst(relvar)) + ' )';
  return 'IF ' + isAbsent + ' THEN ' + insertionOf(relvar, row) + ' END IF;';
}
// A statement that does something only if a tuple is as it was seen.
function onlyIfSeen(relvar, seen, statement) {
  const isThere = 'NOT IS_EMPTY ( ' + whereEqual(relvar, seen, keyFirst(relvar)) + ' )';
  return 'IF ' + isThere + ' THEN ' + statement + ' END IF;';
}
// A change of what differs between two rows; null if nothing does.
function updateOf(relvar, seen, row) {
  const names = namesOf(relvar).filter(name => differsAt(relvar, seen, row, name));
  if (!names.length) return null;
  const assignments = names.map(name => name + ' := ' + literalAt(relvar, row, name)).join(', ');
  return 'UPDATE ' + whereEqual(relvar, seen, keyOf(relvar)) + ' ( ' + assignments + ' );';
}
const deletionOf = (relvar, seen) => 'DELETE ' + whereEqual(relvar, seen, keyOf(relvar)) + ';';

// ---- What a statement of a form was to do

function readPair(relvar, source, [from, to], sign) {
  const name = source.name(from);
  if (source.word(from + 1) !== sign) throw new Error('no pair');
  return [name, cellOf(relvar.types.get(name), source.slice(from + 2, to))];
}
function readTuple(relvar, source, from, to) {
  return Object.fromEntries(source.parts(from + 2, to - 1).map(([first, end]) => {
    const name = source.name(first);
    return [name, cellOf(relvar.types.get(name), source.slice(first + 1, end))];
  }));
}
function readConditions(relvar, source, from, to) {
  const pairs = [];
  while (from < to) {
    const end = Math.min(source.end(from, 'AND', ';'), to);
    pairs.push(readPair(relvar, source, [from, end], '='));
    from = end + 1;
  }
  return Object.fromEntries(pairs);
}
function readInsertion(relvar, source, index) {
  if (source.word(index) !== 'RELATION' || source.word(index + 2) !== 'TUPLE') return null;
  const parts = source.parts(index + 2, source.end(index + 2));
  return { does: 'add', relvar, rows: parts.map(([from, to]) => readTuple(relvar, source, from, to)) };
}
// The assignments of an update are in its last brackets.
function readUpdate(relvar, source, index) {
  const end = source.end(index, ';');
  let open = index, depth = 0;
  for (let at = index; at < end; at++) {
    if (depth === 0 && source.word(at) === '(') open = at;
    depth += BRACKETS[source.word(at)] || 0;
  }
  const key = readConditions(relvar, source, index + 1, open);
  const pairs = source.parts(open + 1, source.end(open + 1)).map(part => readPair(relvar, source, part, ':='));
  return { does: 'change', relvar, key, values: Object.fromEntries(pairs) };
}
function readDeletion(relvar, source, index) {
  return { does: 'remove', relvar, key: readConditions(relvar, source, index + 1, source.end(index, ';')) };
}
// What a text was to do, with its rows or its key and values; null if no form wrote it.
function readStatement(relvars, text) {
  const readers = new Map([['INSERT', readInsertion], ['UPDATE', readUpdate], ['DELETE', readDeletion]]);
  try {
    const source = new Source(text);
    const begin = source.word(0) === 'IF' ? source.end(1, 'THEN') + 1 : 0;
    return readers.get(source.word(begin))(relvars.get(source.name(begin + 1)), source, begin + 2);
  } catch {
    return null;
  }
}

// The first row that came into a relvar by a change as `R - TUPLE { .. } + TUPLE { .. }`; null if there is none.
function readChange(relvar, text) {
  const source = new Source(text), at = source.end(1, '+', ';') + 1;
  if (source.name(0) !== relvar.name || source.word(at) !== 'TUPLE') return null;
  return readTuple(relvar, source, at, source.end(at + 2) + 1);
}

// ---- Stamps

const siteOf = stamp => Number(stamp.split('.')[1]);
const clockOf = stamp => Number(stamp.split('.')[0]);
// (no entry has the site 0)
const stampBefore = stamp => clockOf(stamp) + '.' + (siteOf(stamp) - 1);
const isEarlier = (one, other) => clockOf(one) - clockOf(other) || siteOf(one) - siteOf(other);

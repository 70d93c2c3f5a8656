// acorn's trees in the form that the program reads, as JSON; and what it answers back as acorn has it.

import { MangleError } from './errors.js';

// The program reads no JSON that nests deeper than this.
export const MOST_LEVELS = 127;

// What tools hang on nodes beside ESTree's fields; the program refuses it with content, and it says nothing more.
const BESIDE = new Set([
  'loc', 'range', 'parent', 'comments', 'tokens', 'sourceFile', 'leadingComments', 'trailingComments', 'innerComments',
]);

// Fields that may hold numbers, texts with lone surrogates and values that JSON hasn't.
const isNode = (value) => value !== null && typeof value === 'object' && typeof value.type === 'string';

/** A text, or the list of its code units where a surrogate stands alone in it. */
export function unitsOf(text) {
  if (typeof text !== 'string' || !/\p{Surrogate}/u.test(text)) return text;
  return Array.from({ length: text.length }, (_, at) => text.charCodeAt(at));
}

/** The text of what `unitsOf` gives. */
export function textOf(units) {
  return Array.isArray(units) ? units.map((unit) => String.fromCharCode(unit)).join('') : units;
}

// A text without lone surrogates, or null: what `raw` may be, which no rule looks at but for numbers.
const wellFormed = (text) => (typeof text === 'string' && !/\p{Surrogate}/u.test(text) ? text : null);

function literalOf(node) {
  const { type, start, end } = node;
  const base = { type, start, end, raw: wellFormed(node.raw) };
  if (node.regex) {
    return { ...base, value: null, regex: { pattern: node.regex.pattern, flags: node.regex.flags } };
  }
  if (typeof node.bigint === 'string' || typeof node.value === 'bigint') {
    return { ...base, value: null, bigint: node.bigint ?? String(node.value) };
  }
  if (typeof node.value === 'number') return numberOf(base, node.value);
  return { ...base, value: unitsOf(node.value) };
}

// Whole numbers below 2^64 are written, of others the text alone.
function numberOf(base, value) {
  if (Number.isInteger(value) && value >= 0 && value < 2 ** 64) return { ...base, value };
  return { ...base, value: null, raw: base.raw ?? String(value) };
}

function elementOf(node) {
  const { type, start, end, tail } = node;
  return { type, start, end, tail, value: { raw: unitsOf(node.value.raw), cooked: unitsOf(node.value.cooked ?? null) } };
}

function fieldOf(value) {
  if (Array.isArray(value)) return value.map(fieldOf);
  return isNode(value) ? nodeOf(value) : value;
}

function nodeOf(node) {
  if (node.type === 'Literal') return literalOf(node);
  if (node.type === 'TemplateElement') return elementOf(node);
  const made = {};
  for (const key of Object.keys(node)) {
    if (!BESIDE.has(key) && typeof node[key] !== 'function' && node[key] !== undefined) made[key] = fieldOf(node[key]);
  }
  return made;
}

// The first line `#!..`, which acorn skips as a comment.
function hashbangOf(text) {
  const found = /^#!([^\n\r\u2028\u2029]*)/.exec(text);
  return found && { type: 'Hashbang', start: 0, end: found[0].length, value: wellFormed(found[1]) ?? '' };
}

/** The tree that the program reads of one that acorn gives. `text` is the source, where it is known. */
export function treeOf(program, text) {
  const tree = nodeOf(program);
  const hashbang = text === undefined ? null : hashbangOf(text);
  return hashbang ? { ...tree, hashbang } : tree;
}

/** How many levels of objects and lists a value has, itself counted. */
export function levelsOf(value) {
  let most = 0;
  const left = [[value, 1]];
  while (left.length > 0) {
    const [next, level] = left.pop();
    if (next === null || typeof next !== 'object') continue;
    most = Math.max(most, level);
    for (const key of Object.keys(next)) left.push([next[key], level + 1]);
  }
  return most;
}

/** The JSON of a value that nests no deeper than the program reads. */
export function jsonOf(value) {
  if (levelsOf(value) > MOST_LEVELS) {
    throw new MangleError('TooDeep', `nested too deep: its tree has more than ${MOST_LEVELS} levels of JSON`);
  }
  return JSON.stringify(value);
}

// Offsets of code units, each at its number of UTF-8 bytes; a lone surrogate counts as what stands for it in UTF-8.
function byteOffsets(text) {
  const offsets = new Uint32Array(text.length + 1);
  let bytes = 0;
  for (let at = 0; at < text.length; ) {
    const point = text.codePointAt(at);
    const units = point > 0xffff ? 2 : 1;
    offsets.fill(bytes, at, at + units);
    bytes += point < 0x80 ? 1 : point < 0x800 ? 2 : point < 0x10000 ? 3 : 4;
    at += units;
  }
  offsets[text.length] = bytes;
  return offsets;
}

/** A tree whose offsets, of code units of a text, are put as those of its UTF-8 bytes. */
export function inBytes(tree, text) {
  const offsets = byteOffsets(text);
  const moved = (value) => {
    if (Array.isArray(value)) return value.map(moved);
    if (!isNode(value)) return value;
    const made = {};
    for (const key of Object.keys(value)) made[key] = moved(value[key]);
    return { ...made, start: offsets[value.start], end: offsets[value.end] };
  };
  return moved(tree);
}

function at(tree, path) {
  return path.reduce((value, key) => value[key], tree);
}

// A RegExp, or null where this version of the language hasn't it, as acorn does.
function regexpOf({ pattern, flags }) {
  try {
    return new RegExp(pattern, flags);
  } catch {
    return null;
  }
}

function putBack(node) {
  if (Array.isArray(node)) return node.forEach(putBack);
  if (!isNode(node)) return undefined;
  if (node.type === 'Literal') {
    if (node.value === null && /^[0-9.]/.test(node.raw ?? '') && !node.bigint) node.value = Number(node.raw.replaceAll('_', ''));
    node.value = textOf(node.value);
  } else if (node.type === 'TemplateElement') {
    node.value = { raw: textOf(node.value.raw), cooked: textOf(node.value.cooked) };
  }
  return Object.keys(node).forEach((key) => putBack(node[key]));
}

/** The tree of an answer, with the values that JSON hasn't put back where `fixes` says. */
export function answeredTree({ node, fixes }) {
  putBack(node);
  for (const path of fixes) {
    const literal = at(node, path);
    literal.value = literal.bigint ? BigInt(literal.bigint) : regexpOf(literal.regex);
  }
  return node;
}

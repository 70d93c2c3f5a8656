// New names, put into the user's own text: all that isn't a name stays as it was written.

import { MangleError } from './errors.js';
import { textOf } from './tree.js';

const isNode = (value) => value !== null && typeof value === 'object' && typeof value.type === 'string';
const isName = (node) => node.type === 'Identifier' || node.type === 'PrivateIdentifier';

// The name that a property's value binds or reads, where it is shorthand or could be: its own, or that of its default's target.
const leafOf = (value) => (value.type === 'AssignmentPattern' ? value.left : value);

const spellingOf = (node) => (node.type === 'PrivateIdentifier' ? `#${node.name}` : node.name);

// The two nodes whose spans a specifier joins, its outer name first.
function ends(node) {
  if (node.type === 'ImportSpecifier') return [node.imported, node.local];
  return [node.local, node.exported];
}

class Edits {
  constructor(source) {
    this.source = source;
    this.list = [];
  }

  put(start, end, text) {
    if (this.source.slice(start, end) !== text) this.list.push({ start, end, text });
  }

  text() {
    const parts = [];
    let from = 0;
    for (const { start, end, text } of this.list.sort((a, b) => a.start - b.start)) {
      if (start < from) throw new MangleError('BadAnswer', `two names at offset ${start}`);
      parts.push(this.source.slice(from, start), text);
      from = end;
    }
    return parts.join('') + this.source.slice(from);
  }

  written({ start, end }) {
    return this.source.slice(start, end);
  }
}

// A name that changed, at its own span.
function putName(edits, old, renamed) {
  if (old.name !== renamed.name) edits.put(old.start, old.end, spellingOf(renamed));
}

// `{x}` whose key stays and whose value has a new name is `{x: e}`; `{x: e}` whose mark comes back is `{x}`.
function putProperty(edits, old, renamed) {
  const key = old.key;
  const leaf = leafOf(old.value);
  if (old.shorthand && !renamed.shorthand) {
    edits.put(key.start, key.end, `${edits.written(key)}: ${leafOf(renamed.value).name}`);
  } else if (!old.shorthand && renamed.shorthand && isJoin(edits, key, leaf, /^\s*:\s*$/)) {
    edits.put(key.start, leaf.end, edits.written(key));
  } else {
    if (!old.shorthand) put(edits, old.key, renamed.key);
    return put(edits, old.value, renamed.value);
  }
  if (old.value.type === 'AssignmentPattern') put(edits, old.value.right, renamed.value.right);
  return undefined;
}

// Whether nothing but this stands between two nodes, so that no comment of the user's is lost.
function isJoin(edits, first, second, between) {
  return between.test(edits.source.slice(first.end, second.start));
}

// `import {x}` is `import {x as e}`, `export {x}` is `export {e as x}`, and the other way.
function putSpecifier(edits, old, renamed) {
  const [first, second] = ends(old);
  const [newFirst, newSecond] = ends(renamed);
  if (first.start === second.start) {
    if (newFirst.name === newSecond.name) return putName(edits, first, newFirst);
    const firstText = first.name === newFirst.name ? edits.written(first) : newFirst.name;
    const secondText = second.name === newSecond.name ? edits.written(second) : newSecond.name;
    return edits.put(first.start, first.end, `${firstText} as ${secondText}`);
  }
  const changed = first.name !== newFirst.name || second.name !== newSecond.name;
  const same = first.type === 'Identifier' && second.type === 'Identifier' && newFirst.name === newSecond.name;
  if (changed && same && isJoin(edits, first, second, /^\s+as\s+$/)) {
    return edits.put(first.start, second.end, newFirst.name);
  }
  put(edits, first, newFirst);
  return put(edits, second, newSecond);
}

function put(edits, old, renamed) {
  if (Array.isArray(old)) return old.forEach((item, at) => put(edits, item, renamed[at]));
  if (!isNode(old)) return undefined;
  if (!isNode(renamed) || old.type !== renamed.type) throw new MangleError('BadAnswer', `no ${old.type} at offset ${old.start}`);
  if (isName(old)) return putName(edits, old, renamed);
  if (old.type === 'Property') return putProperty(edits, old, renamed);
  if (old.type === 'ImportSpecifier' || old.type === 'ExportSpecifier') return putSpecifier(edits, old, renamed);
  return Object.keys(old).forEach((key) => put(edits, old[key], renamed[key]));
}

/** The text of `old`'s source under the names of `renamed`, a tree that is `old` but for names and `shorthand` marks. */
export function renamedText(source, old, renamed) {
  const edits = new Edits(source);
  put(edits, old, renamed);
  return edits.text();
}

// What of a literal a text may write otherwise, or that stands where it stood.
const UNTOLD = new Set(['start', 'end', 'raw', 'hashbang']);

/** Whether two trees are the same but for where they stand and how literals are written. */
export function areAlike(one, other) {
  if (one === other) return true;
  if (typeof one === 'string' || typeof other === 'string') return textOf(one) === textOf(other);
  if (one === null || other === null || one === undefined || other === undefined) return isNothing(one) && isNothing(other);
  if (typeof one !== 'object' || typeof other !== 'object') return isNothing(one) && isNothing(other);
  const keys = new Set([...Object.keys(one), ...Object.keys(other)]);
  return [...keys].every((key) => isUntold(one, key) || areAlike(one[key], other[key]));
}

// `{a: a}` is `{a}`, but for `__proto__`, which sets the prototype where it has a colon.
function isUntold(node, key) {
  if (!isNode(node)) return false;
  if (node.type === 'Property' && key === 'shorthand') return isBoth(node) && node.key.name !== '__proto__';
  return UNTOLD.has(key);
}

const isBoth = ({ computed, key, value }) =>
  !computed && key.type === 'Identifier' && leafOf(value).type === 'Identifier' && key.name === leafOf(value).name;

// What a field holds that a tree may also leave out.
const isNothing = (value) => value === undefined || value === null || value === false || (Array.isArray(value) && value.length === 0);

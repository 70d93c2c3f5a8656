import assert from 'node:assert/strict';
import { test } from 'node:test';
import { areAlike, renamedText } from '../lib/names.js';
import { parse } from '../lib/parser.js';
import { treeOf } from '../lib/tree.js';

// Each text stands beside one that is its own tree under other names, and what is to be written.
const ROWS = [
  ['let a /* a */ = a ;  // a', 'let b = b', 'let b /* a */ = b ;  // a'],
  ['({a, b})', '({a: c, b})', '({a: c, b})'],
  ['let {a = 1} = x', 'let {a: c = 1} = x', 'let {a: c = 1} = x'],
  ['let {a = a} = x', 'let {a: c = c} = x', 'let {a: c = c} = x'],
  ['({a: c})', '({a})', '({a})'],
  ['let {a: c = 1} = x', 'let {a = 1} = x', 'let {a = 1} = x'],
  ['({a:c})', '({a})', '({a})'],
  ['({a /* why */ : c})', '({a})', '({a /* why */ : a})'],
  ['import {a} from "m"', 'import {a as c} from "m"', 'import {a as c} from "m"'],
  ['import {a as c} from "m"', 'import {a} from "m"', 'import {a} from "m"'],
  ['import {default as a} from "m"', 'import {default as c} from "m"', 'import {default as c} from "m"'],
  ['let a; export {a}', 'let c; export {c as a}', 'let c; export {c as a}'],
  ['let a; export {a as "b b"}', 'let c; export {c as "b b"}', 'let c; export {c as "b b"}'],
  ['class A { #a; f() { return #a in this } }', 'class A { #b; f() { return #b in this } }', 'class A { #b; f() { return #b in this } }'],
  ['let \\u0061bc; ({\\u0061bc})', 'let c; ({abc: c})', 'let c; ({\\u0061bc: c})'],
  ['`${a}a`', '`${c}a`', '`${c}a`'],
];

const tree = (text) => treeOf(parse(text), text);

test('names are put into the text', () => {
  for (const [text, other, wanted] of ROWS) {
    assert.equal(renamedText(text, tree(text), tree(other)), wanted);
    assert.ok(areAlike(tree(wanted), tree(other)), wanted);
  }
});

test('another tree is refused', () => {
  assert.throws(() => renamedText('a', tree('a'), tree('1')), { kind: 'BadAnswer', status: 23 });
});

test('trees are told apart', () => {
  const rows = [['a', 'b'], ['1', '2'], ['"a"', '"b"'], ['a + b', 'a - b'], ['f(a)', 'f(a, b)'], ['/a/', '/a/g'], ['1n', '2n'], ['({__proto__})', '({__proto__: __proto__})'], ['({a})', '({[a]: a})']];
  for (const [one, other] of rows) assert.ok(!areAlike(tree(one), tree(other)), `${one} ${other}`);
});

import assert from 'node:assert/strict';
import { test } from 'node:test';
import { parse } from '../lib/parser.js';
import { answeredTree, inBytes, jsonOf, levelsOf, treeOf } from '../lib/tree.js';

const literal = (text) => treeOf(parse(text), text).body[0].expression;

test('numbers that are not whole, or too large, stand as text', () => {
  const rows = [
    ['1.5', null], ['1e400', null], ['18446744073709551616', null], ['0x10', 16], ['1_000', 1000], ['9007199254740993', 9007199254740992],
  ];
  for (const [text, value] of rows) {
    assert.equal(literal(text).value, value, text);
    assert.equal(literal(text).raw, text);
  }
});

test('BigInt and RegExp literals have no value', () => {
  assert.deepEqual(literal('12n').value, null);
  assert.equal(literal('12n').bigint, '12');
  const found = literal('/a\\/b/gi');
  assert.equal(found.value, null);
  assert.deepEqual(found.regex, { pattern: 'a\\/b', flags: 'gi' });
});

test('a lone surrogate makes a list of code units', () => {
  assert.deepEqual(literal('x = "a\\ud800"').right.value, [0x61, 0xd800]);
  assert.equal(literal('x = "\\ud83d\\ude00"').right.value, '\u{1f600}');
  assert.deepEqual(literal('`\\udc00`').quasis[0].value, { raw: '\\udc00', cooked: [0xdc00] });
  assert.equal(literal('x = "\ud800"').right.raw, null);
});

test('a first line is a hashbang', () => {
  const text = '#!/usr/bin/env node\nx';
  assert.deepEqual(treeOf(parse(text), text).hashbang, { type: 'Hashbang', start: 0, end: 19, value: '/usr/bin/env node' });
});

test('offsets count bytes where they are asked for', () => {
  const text = '"\u00e9\u20ac\u{1f600}"; a';
  const [, statement] = inBytes(treeOf(parse(text), text), text).body;
  assert.equal(text.slice(0, 8), '"\u00e9\u20ac\u{1f600}"; ');
  assert.equal(statement.start, Buffer.byteLength('"\u00e9\u20ac\u{1f600}"; '));
});

test('levels are counted, and too many are refused', () => {
  assert.equal(levelsOf({ a: [{ b: [] }] }), 4);
  const deep = `${'f('.repeat(70)}${')'.repeat(70)}`;
  assert.throws(() => jsonOf(treeOf(parse(deep), deep)), { kind: 'TooDeep', status: 3 });
});

test('an answer has its values back', () => {
  const node = {
    type: 'ArrayExpression',
    elements: [
      { type: 'Literal', value: null, raw: '12n', bigint: '12' },
      { type: 'Literal', value: null, raw: '/a/g', regex: { pattern: 'a', flags: 'g' } },
      { type: 'Literal', value: null, raw: '1_0.5' },
      { type: 'Literal', value: null, raw: 'null' },
    ],
  };
  const values = answeredTree({ node, fixes: [['elements', 0], ['elements', 1]] }).elements.map(({ value }) => value);
  assert.deepEqual(values, [12n, /a/g, 10.5, null]);
});

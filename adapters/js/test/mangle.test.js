import assert from 'node:assert/strict';
import { spawnSync } from 'node:child_process';
import { mkdtempSync, readFileSync, rmSync, writeFileSync } from 'node:fs';
import { tmpdir } from 'node:os';
import { join } from 'node:path';
import { test } from 'node:test';
import { fileURLToPath } from 'node:url';
import vm from 'node:vm';
import { mangle, mangleTree, mangleWithMap, report, restore } from '../lib/index.js';
import { parse } from '../lib/parser.js';

// A program of each edition; what they log is the same under other names.
const SCRIPTS = {
  es3: 'function outer(first, second) { var sum = first + second; try { throw sum } catch (error) { log(error) } for (var key in {a: 1}) log(key); return sum } log(outer(1, 2));',
  es5: '(function () { "use strict"; var holder = { get value() { return this.inner }, inner: 3 }; log(holder.value, [1, 2].map(function (item) { return item * 2 }).join()) })();',
  es2015: '(() => { class Base { constructor(name) { this.name = name } say() { return `${this.name}!` } } class Next extends Base { say() { return super.say() + "?" } } const { name, ...others } = { name: 1, two: 2 }; let [head = 5, ...rest] = [undefined, 6]; function* counting(limit) { for (let at = 0; at < limit; at++) yield at } log(new Next("a").say(), name, others.two, head, rest.join(), [...counting(3)].join()) })();',
  es2016: '(() => { const power = 2 ** 5; log(power, [power].includes(32)) })();',
  es2017: '(() => { const waiting = async (value) => await value; waiting(1); log(typeof waiting(2).then) })();',
  es2018: '(() => { const source = { a: 1, b: 2 }; const copy = { ...source, b: 3 }; const { a, ...left } = copy; log(a, left.b, /(?<year>\\d+)/.exec("in 2018").groups.year) })();',
  es2019: '(() => { let result; try { JSON.parse("{") } catch { result = "bad" } log(result) })();',
  es2020: '(() => { const nothing = null; const large = 2n ** 64n; log(nothing?.length ?? "none", String(large), nothing?.[0]) })();',
  es2021: '(() => { let first = null, second = 1; first ??= 4; second &&= 0; second ||= 9; log(first, second, 1_000) })();',
  es2022: '(() => { class Counter { static #made = 0; #count = 0; static { Counter.#made = 7 } next() { return ++this.#count } has(other) { return #count in other } static made() { return Counter.#made } } const counter = new Counter(); counter.next(); log(counter.next(), counter.has(counter), counter.has({}), Counter.made()) })();',
  shorthand: '(() => { const alpha = 1, beta = 2; const make = ({ alpha, beta = alpha }) => ({ alpha, beta }); log(JSON.stringify(make({ alpha })), JSON.stringify({ alpha, beta })) })();',
  labels: '(() => { outer: for (let at = 0; at < 3; at++) { for (;;) { if (at === 1) break outer; continue outer } } log("done") })();',
  tagged: '(() => { const tag = (parts, ...values) => parts.raw.join("|") + values; const value = 5; log(tag`a\\u0041${value}\\d`) })();',
  eval: '(() => { const seen = 4; log(eval("seen")) })();',
  prototype: '(() => { const __proto__ = { inherited: 1 }; const made = { __proto__ }; log(Object.keys(made).join(), made.inherited) })();',
  surrogates: '(() => { const lone = "\\ud800", pair = "\u{1f600}"; log(lone.length, pair.length, `\\udc00`.length) })();',
};

function logOf(text) {
  const lines = [];
  vm.runInNewContext(text, { log: (...words) => lines.push(words.join(' ')) });
  return lines;
}

for (const [name, text] of Object.entries(SCRIPTS)) {
  test(`a program of ${name} logs the same`, async () => {
    const { code, map } = await mangleWithMap(text);
    const before = logOf(text);
    assert.ok(before.length > 0);
    assert.deepEqual(logOf(code), before);
    assert.equal(await restore(code, map), text);
  });
}

test('a module runs the same', async () => {
  const text = 'import { join as joined, sep } from "node:path"; export const named = joined("a", "b"); const local = import.meta.url.length > 0; await null; export { local, local as other, sep }; export default function worker(value) { return value + named }';
  const load = (code) => import(`data:text/javascript,${encodeURIComponent(code)}`);
  const [before, after] = [await load(text), await load((await mangle(text)).toString())];
  assert.deepEqual(Object.keys(after).sort(), Object.keys(before).sort());
  assert.equal(after.default('x'), before.default('x'));
  assert.deepEqual([after.named, after.local, after.other, after.sep], [before.named, before.local, before.other, before.sep]);
});

test('formatting and comments stay', async () => {
  const text = '#!/usr/bin/env node\n// first\nfunction  long ( name )\n{ return name /* name */ }\n';
  assert.equal(await mangle(text), '#!/usr/bin/env node\n// first\nfunction  long ( e )\n{ return e /* name */ }\n');
});

test('options are passed on', async () => {
  const text = 'function long(name) { return name } long(1);';
  assert.equal(await mangle(text, { topLevel: true }), 'function e(e) { return e } e(1);');
  assert.equal(await mangle(text, { topLevel: true, keepFnNames: true }), 'function long(e) { return e } long(1);');
  assert.equal(await mangle(text, { reserved: ['name'] }), text);
  assert.equal(await mangle(text, { debug: true }), 'function long(slot_0) { return slot_0 } long(1);');
  assert.equal(await mangle('return name; var name', { sourceType: 'commonjs' }), 'return e; var e');
});

test('trees are renamed too', async () => {
  const tree = await mangleTree(parse('(value) => [value, 1n, /a/g, 1.5]'));
  const { params, body } = tree.body[0].expression;
  assert.equal(params[0].name, 'e');
  assert.deepEqual(body.elements.slice(1).map(({ value }) => value), [1n, /a/g, 1.5]);
});

test('findings have lines and columns', async () => {
  assert.deepEqual(await report('"\u{1f600}";\n  (unused) => missing;'), [
    { line: 2, column: 4, rule: 'unused', name: 'unused' },
    { line: 2, column: 15, rule: 'unresolved', name: 'missing' },
  ]);
});

// What is refused, and where.
const REFUSED = [
  ['let let', 'BadSyntax'],
  ['{ function f() {} }', 'BadScope', 12],
  ['try {} catch (e) { var e }', 'BadScope', 24],
  ['(a = b) => { var b }', 'BadScope', 6],
  ['if (1) function f() {}', 'BadTree'],
  ['a: function f() {}', 'BadTree'],
  [`${'f('.repeat(70)}${')'.repeat(70)}`, 'TooDeep'],
];

for (const [text, kind, column] of REFUSED) {
  test(`refused: ${text.slice(0, 30)}`, async () => {
    const error = await mangle(text).then(() => undefined, (reason) => reason);
    assert.equal(error?.kind, kind);
    if (column !== undefined) assert.deepEqual([error.line, error.column], [1, column]);
  });
}

test('a map that does not fit is refused', async () => {
  await assert.rejects(restore('let a', { names: [[7, 'b']], marks: [] }), { kind: 'BadMap', status: 11 });
});

const COMMAND = fileURLToPath(new URL('../bin/mangle-js.js', import.meta.url));

function run(words, input = '') {
  const { status, stdout, stderr } = spawnSync(process.execPath, [COMMAND, ...words], { input, encoding: 'utf8' });
  return { status, stdout, stderr };
}

test('the command', () => {
  const folder = mkdtempSync(join(tmpdir(), 'mangle-js-'));
  try {
    const [file, map] = [join(folder, 'a.js'), join(folder, 'a.map')];
    const text = 'function long(name) { return { name } }\n';
    writeFileSync(file, text);
    const renamed = run(['--map', map, file]);
    assert.deepEqual(renamed, { status: 0, stdout: 'function long(e) { return { name: e } }\n', stderr: '' });
    assert.ok(JSON.parse(readFileSync(map, 'utf8')).names);
    assert.equal(run(['restore', '--map', map], renamed.stdout).stdout, text);
    assert.equal(run(['--report', file]).stdout, `${file}:1:10: unused long\n`);
    assert.equal(run(['--help']).status, 0);
    assert.equal(run(['--what']).status, 2);
    assert.equal(run(['--reserve', '--help'], text).status, 0);
    assert.equal(run([join(folder, 'none.js')]).status, 8);
    const bad = run([], 'a b');
    assert.equal(bad.status, 20);
    assert.match(bad.stderr, /^mangle-js: <stdin>:1:3: /);
    assert.equal(run(['--program', '/not/there'], 'a').status, 21);
    assert.equal(run([], Buffer.from([0xff])).status, 20);
  } finally {
    rmSync(folder, { recursive: true });
  }
});

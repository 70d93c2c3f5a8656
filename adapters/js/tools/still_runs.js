#!/usr/bin/env node
// Whether a CommonJS file still does the same under new names: its exports, and what calls on them give.
//
//   tools/still_runs.js FILE [EXPRESSION..]
//
// Each EXPRESSION is evaluated with the exports as `it`, once of the file and once of its renamed text; it has `require`.

import { readFile } from 'node:fs/promises';
import { createRequire } from 'node:module';
import { dirname, resolve } from 'node:path';
import { isDeepStrictEqual } from 'node:util';
import { mangle } from '../lib/index.js';

const [file, ...expressions] = process.argv.slice(2);
if (file === undefined) {
  process.stderr.write('tools/still_runs.js FILE [EXPRESSION..]\n');
  process.exit(2);
}

function load(text) {
  const module = { exports: {} };
  const names = ['module', 'exports', 'require', '__filename', '__dirname'];
  const run = new Function(...names, text.replace(/^#!.*/, ''));
  run(module, module.exports, createRequire(resolve(file)), resolve(file), dirname(resolve(file)));
  return module.exports;
}

const required = createRequire(import.meta.url);
const kinds = (it) => Object.keys(it).sort().map((key) => `${key}: ${typeof it[key]}`);
const given = (it, expression) => String(JSON.stringify(new Function('it', 'require', `return (${expression})`)(it, required)));

const text = await readFile(file, 'utf8');
const begun = performance.now();
const renamed = await mangle(text, { sourceType: 'commonjs', file });
const took = ((performance.now() - begun) / 1000).toFixed(1);
const [before, after] = [load(text), load(renamed)];
let isSame = isDeepStrictEqual(kinds(before), kinds(after));
console.log(`${file}: ${text.length} characters, ${renamed.length} under new names, ${took} s`);
console.log(`  exports: ${kinds(before).length}, ${isSame ? 'the same' : 'NOT THE SAME'}`);
for (const expression of expressions) {
  const [one, other] = [given(before, expression), given(after, expression)];
  if (one !== other) isSame = false;
  console.log(`  ${expression} = ${one.slice(0, 60)}${one === other ? '' : `, but then ${other.slice(0, 60)}`}`);
}
process.exitCode = isSame ? 0 : 1;

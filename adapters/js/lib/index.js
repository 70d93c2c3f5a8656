// JavaScript in, JavaScript out: acorn reads it, the program `mangle` gives names, and these are put into the text.

import { MangleError } from './errors.js';
import { areAlike, renamedText } from './names.js';
import { parse } from './parser.js';
import { runProgram, wordsOf } from './program.js';
import { answeredTree, inBytes, jsonOf, treeOf } from './tree.js';

export { MangleError } from './errors.js';

// A text's tree as the program reads it, with the source type that it was read under.
function read(text, options) {
  if (typeof text !== 'string') throw new MangleError('BadArgument', 'the source is no string');
  return treeOf(parse(text, options), text);
}

// Puts names into a text, and looks whether it reads as the tree that was answered.
function rewritten(text, tree, answered) {
  const renamed = renamedText(text, tree, answered);
  const again = read(renamed, { sourceType: tree.sourceType });
  if (!areAlike(again, answered)) throw new MangleError('BadAnswer', "the text that was made doesn't read as the tree that was answered");
  return renamed;
}

async function answer(words, input, text, options) {
  try {
    return JSON.parse(await runProgram(words, input, options));
  } catch (error) {
    throw error instanceof MangleError ? await placed(error, text, options) : error;
  }
}

// The finding that tells why scopes are refused, or the statement that no tree has.
async function placed(error, text, options) {
  if (error.kind === 'BadScope') {
    const fault = (await report(text, options)).find(({ rule }) => rule.startsWith('fault-'));
    if (fault) return new MangleError('BadScope', `${FAULTS[fault.rule]}: ${fault.name}`, fault);
  }
  return error;
}

const FAULTS = {
  'fault-1': 'the name is declared twice',
  'fault-2': 'a var crosses a declaration of its name',
  'fault-3': 'a function in a block of sloppy code',
  'fault-4': 'a private name that no class declares',
  'fault-5': 'a reference in parameters that means a declaration of the body',
};

/** The text under new names. */
export async function mangle(text, options = {}) {
  const tree = read(text, options);
  const { node } = await answer(wordsOf(options), jsonOf(tree), text, options);
  return rewritten(text, tree, node);
}

/** The text under new names, and the map that gives the old ones back. */
export async function mangleWithMap(text, options = {}) {
  const tree = read(text, options);
  const { node, map } = await answer(['map', ...wordsOf(options)], jsonOf(tree), text, options);
  return { code: rewritten(text, tree, node), map };
}

/** The text under the names that it had, by the map that `mangleWithMap` gave. */
export async function restore(text, map, options = {}) {
  const tree = read(text, options);
  const { node } = await answer(['restore'], jsonOf({ node: tree, map }), text, options);
  return rewritten(text, tree, node);
}

/** A tree of acorn's form under new names; its literals have their values. */
export async function mangleTree(tree, options = {}) {
  return answeredTree(JSON.parse(await runProgram(wordsOf(options), jsonOf(treeOf(tree)), options)));
}

/** What a linter asks of scopes: findings in the order of the text, with lines and columns from 1. */
export async function report(text, options = {}) {
  const source = text.replace(/\p{Surrogate}/gu, '\ufffd');
  const node = inBytes(read(text, options), text);
  const written = await runProgram(['report'], jsonOf({ source, node }), options);
  return written.split('\n').filter(Boolean).map((line) => {
    const [place, rule, ...name] = line.split(' ');
    const [number, column] = place.split(':').map(Number);
    return { line: number, column, rule, name: name.join(' ') };
  });
}

// The program `mangle`, run as a child process.

import { spawn } from 'node:child_process';
import { existsSync } from 'node:fs';
import { fileURLToPath } from 'node:url';
import { MangleError, NAMES } from './errors.js';

// Where the repository's own build puts it.
const BUILT = fileURLToPath(new URL('../../../crates/mangle/out/mangle', import.meta.url));

/** The program that is run: the one that is named, that of the environment, the one built here, or one on the PATH. */
export function programPath(named) {
  return named ?? (process.env.MANGLE || (existsSync(BUILT) ? BUILT : 'mangle'));
}

// `{__proto__}` makes a property, `{__proto__: e}` sets the prototype: so a variable of this name keeps it.
const ALWAYS_KEPT = ['--reserve', '__proto__'];

/** The words that ask the program for these options. */
export function wordsOf(options = {}) {
  const words = [...ALWAYS_KEPT];
  if (options.topLevel === true) words.push('--top-level');
  if (options.topLevel === false) words.push('--no-top-level');
  if (options.keepFnNames) words.push('--keep-fn-names');
  if (options.keepClassNames) words.push('--keep-class-names');
  if (options.debug) words.push('--debug');
  for (const name of options.reserved ?? []) words.push('--reserve', checked(name));
  return words;
}

// A word that reaches the program as it is.
function checked(name) {
  if (typeof name !== 'string' || /\0|\p{Surrogate}/u.test(name)) {
    throw new MangleError('BadArgument', 'a reserved name is no text');
  }
  return name;
}

/** Runs the program on an input; gives what it wrote, or fails with its status and its message. */
export function runProgram(words, input, options = {}) {
  const path = programPath(options.program);
  return new Promise((resolve, reject) => {
    const child = spawn(path, words, { stdio: ['pipe', 'pipe', 'pipe'] });
    const written = [];
    const said = [];
    child.stdout.on('data', (bytes) => written.push(bytes));
    child.stderr.on('data', (bytes) => said.push(bytes));
    child.on('error', (error) => reject(new MangleError('NoProgram', `${path} can't be run: ${error.message}`)));
    child.on('close', (status, signal) => {
      if (status === 0) return resolve(Buffer.concat(written).toString('utf8'));
      return reject(failure(path, status, signal, Buffer.concat(said).toString('utf8')));
    });
    // (the program may end before it has read everything: its status tells)
    child.stdin.on('error', () => {});
    child.stdin.end(input);
  });
}

function failure(path, status, signal, said) {
  const kind = NAMES[status];
  if (kind === undefined) {
    return new MangleError('NoProgram', `${path} ended with ${signal ?? status}${said && `: ${said.trim()}`}`);
  }
  return new MangleError(kind, said.trim().replace(/^mangle: /, ''));
}

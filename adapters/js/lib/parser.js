// Where the parser acorn comes from, and how it is asked.

import { createRequire } from 'node:module';
import { MangleError } from './errors.js';

// Where Debian's package node-acorn lies.
const DEBIAN = '/usr/share/nodejs/acorn';

const require = createRequire(import.meta.url);

/** acorn, beside this package or of the system. */
export function acorn() {
  for (const name of ['acorn', DEBIAN]) {
    try {
      return require(name);
    } catch (error) {
      if (error.code !== 'MODULE_NOT_FOUND') throw error;
    }
  }
  throw new MangleError('NoParser', 'acorn is not there: npm install, or apt-get install node-acorn');
}

// What acorn is asked for each source type: CommonJS code is a function's body.
const ASKED = {
  script: { sourceType: 'script' },
  module: { sourceType: 'module' },
  commonjs: { sourceType: 'script', allowReturnOutsideFunction: true },
};

/** The ways in which a text may be taken, for an asked source type and a file's name. */
export function sourceTypesFor(asked, file) {
  if (asked in ASKED) return [asked];
  if (asked !== undefined && asked !== 'auto') {
    throw new MangleError('BadArgument', `no source type: ${asked}`);
  }
  if (/\.mjs$/.test(file)) return ['module'];
  if (/\.cjs$/.test(file)) return ['commonjs'];
  return ['script', 'module'];
}

/**
 * acorn's tree of a text, under the first of the asked source types that it has. Where it has none, the fault
 * is the one furthest into the text, which is of the type that was meant.
 */
export function parse(text, options = {}) {
  const faults = [];
  for (const type of sourceTypesFor(options.sourceType, options.file ?? '')) {
    try {
      const tree = acorn().parse(text, { ecmaVersion: 'latest', allowHashBang: true, ...ASKED[type] });
      tree.sourceType = type;
      return tree;
    } catch (error) {
      if (error instanceof RangeError) throw new MangleError('TooDeep', 'nested too deep for the parser');
      if (!(error instanceof SyntaxError) || !error.loc) throw error;
      faults.push(error);
    }
  }
  const fault = faults.reduce((best, next) => (next.pos > best.pos ? next : best));
  const said = fault.message.replace(/ \(\d+:\d+\)$/, '');
  throw new MangleError('BadSyntax', said, { line: fault.loc.line, column: fault.loc.column + 1 });
}

#!/usr/bin/env node
// The command mangle-js.

import { readFile, writeFile } from 'node:fs/promises';
import { parseArgs } from 'node:util';
import { MangleError, mangle, mangleWithMap, report, restore } from '../lib/index.js';

const HELP = `mangle-js [OPTION].. [FILE]            writes FILE, or standard input, under new names
mangle-js restore --map MAP [FILE]     gives the old names back
mangle-js --report [FILE]              writes FILE:LINE:COLUMN: RULE NAME for each finding

  --map MAP            writes what gives old names back to the file MAP (restore reads it)
  --source-type TYPE   script, module, commonjs, or auto (.mjs and .cjs tell; else a script, else a module)
  --top-level, --no-top-level, --keep-fn-names, --keep-class-names, --reserve NAME, --debug
                       as the program's own; names at the root stay in a script
  --program PATH       the program mangle (else \$MANGLE, the one built in the repository, one on the PATH)
  --help               this text

Exit status: the program's; 20 the text isn't JavaScript, 21 the program can't be run, 22 acorn isn't there,
23 an answer that doesn't fit the text.
`;

const flag = { type: 'boolean' };
const OPTIONS = {
  map: { type: 'string' },
  'source-type': { type: 'string' },
  'top-level': flag,
  'no-top-level': flag,
  'keep-fn-names': flag,
  'keep-class-names': flag,
  reserve: { type: 'string', multiple: true },
  debug: flag,
  program: { type: 'string' },
  report: flag,
  help: flag,
};

// The words of the command line; --reserve takes the next word, whatever it is.
function command(words) {
  const joined = [];
  for (let at = 0; at < words.length; at += 1) {
    const takesNext = words[at] === '--reserve' && at + 1 < words.length;
    joined.push(takesNext ? `--reserve=${words[(at += 1)]}` : words[at]);
  }
  const { values, positionals, tokens } = parseArgs({ args: joined, options: OPTIONS, allowPositionals: true, tokens: true });
  const isRestore = positionals[0] === 'restore';
  const files = isRestore ? positionals.slice(1) : positionals;
  if (files.length > 1) throw new Error('one file at a time');
  if (isRestore && values.map === undefined) throw new Error('restore needs --map MAP');
  if (values.report && (isRestore || values.map !== undefined)) throw new Error('--report stands alone');
  const roots = tokens.filter(({ name }) => name === 'top-level' || name === 'no-top-level');
  return { values, isRestore, file: files[0], topLevel: roots.length ? roots.at(-1).name === 'top-level' : undefined };
}

// The bytes of a stream or file, which must be UTF-8.
async function textOf(file) {
  let bytes;
  try {
    bytes = file === undefined ? await standardInput() : await readFile(file);
  } catch (error) {
    throw new MangleError('ReadFault', `read fault: ${error.message}`);
  }
  try {
    return new TextDecoder('utf-8', { fatal: true, ignoreBOM: true }).decode(bytes);
  } catch {
    throw new MangleError('BadSyntax', 'not UTF-8');
  }
}

async function standardInput() {
  const parts = [];
  for await (const part of process.stdin) parts.push(part);
  return Buffer.concat(parts);
}

async function mapIn(file) {
  try {
    return JSON.parse(await textOf(file));
  } catch (error) {
    throw error instanceof MangleError ? error : new MangleError('BadMap', `bad map: ${file} is no JSON`);
  }
}

async function outputOf({ values, isRestore, file, topLevel }) {
  const text = await textOf(file);
  const options = {
    topLevel,
    keepFnNames: values['keep-fn-names'],
    keepClassNames: values['keep-class-names'],
    reserved: values.reserve,
    debug: values.debug,
    sourceType: values['source-type'],
    program: values.program,
    file,
  };
  if (isRestore) return restore(text, await mapIn(values.map), options);
  if (values.report) return reported(await report(text, options), file);
  if (values.map === undefined) return mangle(text, options);
  const { code, map } = await mangleWithMap(text, options);
  try {
    await writeFile(values.map, `${JSON.stringify(map)}\n`);
  } catch (error) {
    throw new MangleError('WriteFault', `write fault: ${error.message}`);
  }
  return code;
}

const shown = (file) => file ?? '<stdin>';

function reported(findings, file) {
  return findings.map(({ line, column, rule, name }) => `${shown(file)}:${line}:${column}: ${rule} ${name}\n`).join('');
}

function fail(status, said) {
  process.stderr.write(`mangle-js: ${said}\n`);
  process.exitCode = status;
}

async function main(words) {
  let asked;
  try {
    asked = command(words);
  } catch (error) {
    return fail(2, `${error.message}\n${HELP}`);
  }
  if (asked.values.help) return process.stdout.write(HELP);
  process.stdout.on('error', (error) => fail(9, `write fault: ${error.message}`));
  try {
    return process.stdout.write(await outputOf(asked));
  } catch (error) {
    if (!(error instanceof MangleError)) throw error;
    const place = error.line === undefined ? '' : `${shown(asked.file)}:${error.line}:${error.column}: `;
    return fail(error.status, `${place}${error.message}`);
  }
}

await main(process.argv.slice(2));

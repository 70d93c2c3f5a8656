import assert from 'node:assert/strict';
import { test } from 'node:test';
import { programPath, runProgram, wordsOf } from '../lib/program.js';

test('options are words', () => {
  assert.deepEqual(wordsOf(), ['--reserve', '__proto__']);
  assert.deepEqual(wordsOf({ topLevel: false, keepFnNames: true, keepClassNames: true, debug: true, reserved: ['a', '--b'] }), [
    '--reserve', '__proto__', '--no-top-level', '--keep-fn-names', '--keep-class-names', '--debug', '--reserve', 'a', '--reserve', '--b',
  ]);
  assert.throws(() => wordsOf({ reserved: ['\ud800'] }), { kind: 'BadArgument', status: 2 });
});

test('the program that is named is run', async () => {
  assert.equal(programPath('/there'), '/there');
  await assert.rejects(runProgram([], '', { program: '/not/there' }), { kind: 'NoProgram', status: 21 });
  await assert.rejects(runProgram([], '', { program: '/bin/false' }), { kind: 'UnreadableWord' });
});

test('statuses have names', async () => {
  await assert.rejects(runProgram([], '{'), { kind: 'NotJson', status: 3, message: 'not JSON' });
  await assert.rejects(runProgram(['--what'], '{}'), { kind: 'BadArgument', status: 2 });
  await assert.rejects(runProgram([], '{}'), { kind: 'BadTree', status: 5 });
});

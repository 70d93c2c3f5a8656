// What can go wrong, by name; those of the program `mangle` have its statuses.

/** The names of the program's statuses. */
export const NAMES = {
  1: 'UnreadableWord',
  2: 'BadArgument',
  3: 'NotJson',
  4: 'TooLarge',
  5: 'BadTree',
  6: 'BadScope',
  7: 'InputTooLong',
  8: 'ReadFault',
  9: 'WriteFault',
  10: 'Memory',
  11: 'BadMap',
  14: 'BadSpan',
};

// The adapter's own, above all of the program's; TooDeep is what the program calls no JSON.
const OWN = { BadSyntax: 20, NoProgram: 21, NoParser: 22, BadAnswer: 23, TooDeep: 3 };

const NUMBERS = { ...Object.fromEntries(Object.entries(NAMES).map(([number, name]) => [name, Number(number)])), ...OWN };

/**
 * A text or tree that wasn't answered. `kind` says why, `status` is the exit status that goes with it, and
 * `line` and `column` (from 1) say where, if that is known.
 */
export class MangleError extends Error {
  constructor(kind, message, place = {}) {
    super(message);
    this.name = 'MangleError';
    this.kind = kind;
    this.status = NUMBERS[kind];
    if (place.line !== undefined) {
      this.line = place.line;
      this.column = place.column;
    }
  }
}

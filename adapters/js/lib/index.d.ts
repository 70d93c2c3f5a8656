/** What the program is asked, and how a text is read. */
export interface Options {
  /** Whether names at the root change; without it they do but in scripts. */
  topLevel?: boolean;
  keepFnNames?: boolean;
  keepClassNames?: boolean;
  /** Bindings of these names keep them, and no other gets one. */
  reserved?: string[];
  /** Readable names. */
  debug?: boolean;
  /** `auto` asks the ending of `file`, then takes a script where it is one, else a module. */
  sourceType?: 'auto' | 'script' | 'module' | 'commonjs';
  /** The file's name. */
  file?: string;
  /** The program `mangle`; else that of the variable MANGLE, the one built in this repository, or one on the PATH. */
  program?: string;
}

/** What gives old names back; it is JSON. */
export interface NameMap {
  names: [number, string][];
  marks: number[];
}

export type Rule =
  | 'fault-1' | 'fault-2' | 'fault-3' | 'fault-4' | 'fault-5' | 'unused' | 'unresolved' | 'shadow';

export interface Finding {
  /** From 1. */
  line: number;
  /** From 1, in UTF-16 code units. */
  column: number;
  rule: Rule;
  /** Without the `#` of a private name. */
  name: string;
}

/** A text or tree that wasn't answered. */
export class MangleError extends Error {
  /** `BadSyntax`, `TooDeep`, `NoProgram`, `NoParser`, `BadAnswer`, or the program's, as `BadTree` or `BadScope`. */
  kind: string;
  /** The exit status of `mangle-js`. */
  status: number;
  line?: number;
  column?: number;
}

export function mangle(text: string, options?: Options): Promise<string>;
export function mangleWithMap(text: string, options?: Options): Promise<{ code: string; map: NameMap }>;
export function restore(text: string, map: NameMap, options?: Options): Promise<string>;
/** Takes and gives a Program of ESTree. */
export function mangleTree(tree: object, options?: Options): Promise<object>;
export function report(text: string, options?: Options): Promise<Finding[]>;

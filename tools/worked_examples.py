#!/usr/bin/env python3
"""Writes the trees of the crate worked_examples from JavaScript.

    tools/worked_examples.py            writes crates/worked_examples/specs/{Blocks,Functions,..}.antt
    tools/worked_examples.py --check    writes nothing; the exit status is 1 where a file isn't up to date

Each tree below has a name and stands as JavaScript, in the small part of it that `Parser` reads: enough
for the rows, and no checker of programs. What is read are terms of the makers in specs/Makers.antt, as
tuples: the maker's name, then its arguments, of which a list is a list of terms. All spans are 0.
`{ x :: e }`, which is no JavaScript, is `{ x: e }` with a shorthand mark.
"""
import json
import pathlib
import re
import sys

SPECS = pathlib.Path(__file__).resolve().parent.parent / "crates/worked_examples/specs"

# ---- the trees, by file: the name, script or module, the text


def script(name, text):
    return name, "script", text


def module(name, text):
    return name, "module_of", text


TREES = {
    "Blocks": (
        "Declarations in modules and blocks.",
        [
            module("acorn_module", "let x = 1; x"),
            module("acorn_module_mangled", "let e = 1; e"),
            module("acorn_module_by_keyword", "let do = 1; do"),
            module("acorn_module_by_eval", "let eval = 1; eval"),
            module("acorn_module_by_two_names", "let e = 1; t"),
            module("acorn_module_changed", "let e = 2; e"),
            module("empty_module", ""),
            module("sibling_blocks", "{ let y = 1; y } { let z = 2; z }"),
            module("sibling_blocks_mangled", "{ let e = 1; e } { let e = 2; e }"),
            module("sibling_blocks_by_keywords", "{ let do = 1; do } { let if = 2; if }"),
            module("inner_use", "let x = 1; { let y = x; y }"),
            module("inner_use_mangled", "let e = 1; { let t = e; t }"),
            module("inner_use_by_one_name", "let e = 1; { let e = e; e }"),
            module("var_in_block", "{ let a = 1; a; { var b = 2 } } b"),
            module("var_in_block_mangled", "{ let t = 1; t; { var e = 2 } } e"),
            module("var_in_block_by_one_name", "{ let e = 1; e; { var e = 2 } } e"),
            module("unresolved", "e(); let x = t"),
            module("unresolved_mangled", "e(); let n = t"),
            module("unresolved_captured", "e(); let t = t"),
            module("unresolved_captured_call", "e(); let e = t"),
            module("unresolved_renamed", "r(); let n = t"),
            module("shorthand_use", "let x = 1; ({ x })"),
            module("shorthand_use_mangled", "let e = 1; ({ x: e })"),
            module("shorthand_use_marked", "let e = 1; ({ x :: e })"),
            module("shorthand_use_by_key", "let e = 1; ({ e })"),
            module("global_shorthand", "({ x })"),
            module("global_shorthand_ended", "({ x: x })"),
            module("written_out", "let x = 1; ({ e: x })"),
            module("written_out_mangled", "let e = 1; ({ e: e })"),
            module("written_out_marked", "let e = 1; ({ e })"),
            module("shorthand_pattern", "let { x = 1 } = {}; x"),
            module("shorthand_pattern_mangled", "let { x: e = 1 } = {}; e"),
            module("ranked", "let alpha = 1; let beta = 2; beta; beta; alpha"),
            module("ranked_mangled", "let ee = 1; let $ = 2; $; $; ee"),
            module("ranked_otherwise", "let $ = 1; let ee = 2; ee; ee; $"),
            module("ranked_by_reserved", "let e = 1; let $ = 2; $; $; e"),
            module("ranked_readably", "let slot_0 = 1; let slot_1 = 2; slot_1; slot_1; slot_0"),
            module("tied", "let alpha = 1; let beta = 2"),
            module("tied_mangled", "let $ = 1; let ee = 2"),
            module("reserved_declared", "let e = 1; let x = 2; x"),
            module("reserved_declared_mangled", "let e = 1; let t = 2; t"),
            module("reserved_declared_renamed", "let t = 1; let n = 2; n"),
            module("labels", "let x = 1; x: { break x }"),
            module("labels_mangled", "let e = 1; x: { break x }"),
            module("labels_renamed", "let e = 1; e: { break e }"),
            module("discriminant", "switch (function (a) { return a }) { case 0: let x; x }"),
            module("discriminant_mangled", "switch (function (e) { return e }) { case 0: let e; e }"),
            module("discriminant_by_two_names", "switch (function (e) { return e }) { case 0: let t; t }"),
            module("function_in_case", "switch (0) { case 0: function f() {} f() } f"),
            module("function_in_case_mangled", "switch (0) { case 0: function e() {} e() } f"),
            module("function_in_case_seen_behind", "switch (0) { case 0: function e() {} e() } e"),
            module("using_declared", "{ using x = g(); x } { await using y = g(); y }"),
            module("using_declared_mangled", "{ using e = g(); e } { await using e = g(); e }"),
            module("catch_parameter", "try { f() } catch (error) { let a = error; a }"),
            module("catch_parameter_mangled", "try { f() } catch (e) { let t = e; t }"),
            module("catch_without_parameter", "try { f() } catch { let a = 1; a }"),
            module("catch_without_parameter_mangled", "try { f() } catch { let e = 1; e }"),
            module("catch_without_parameter_by_global", "try { f() } catch { let f = 1; f }"),
            module("for_head", "for (let a = 0; a;) { let b = a; b } a"),
            module("for_head_mangled", "for (let e = 0; e;) { let t = e; t } a"),
            module("for_head_by_one_name", "for (let e = 0; e;) { let e = e; e } a"),
            module("for_head_seen_behind", "for (let e = 0; e;) { let t = e; t } e"),
            module("for_in_head", "for (let a in o) a; a"),
            module("for_in_head_mangled", "for (let e in o) e; a"),
            module("for_in_head_unseen", "for (let e in o) a; a"),
            module("for_of_head", "for (let a of a) a"),
            module("for_of_head_mangled", "for (let e of e) e"),
            module("for_of_head_unseen", "for (let e of a) e"),
        ],
    ),
    "Functions": (
        "Functions, their parameters and own names, and what code can name while it runs.",
        [
            script("declared_function", "function f(a) { return a }"),
            script("declared_function_mangled", "function f(e) { return e }"),
            script("declared_function_all_mangled", "function e(e) { return e }"),
            script("shadowed_name", "(function f(f) { return f })"),
            script("shadowed_name_mangled", "(function e(e) { return e })"),
            script("shadowed_name_by_two_names", "(function t(e) { return e })"),
            script("shadowed_name_kept", "(function f(e) { return e })"),
            script("shadowed_by_let", "(function f() { let f = 1; return f })"),
            script("shadowed_by_let_mangled", "(function e() { let e = 1; return e })"),
            script("unshadowed_name", "(function f(a) { return a })"),
            script("unshadowed_name_mangled", "(function e(t) { return t })"),
            script("recursion", "(function f(a) { return f(a) })"),
            script("recursion_mangled", "(function e(t) { return e(t) })"),
            script("recursion_by_one_name", "(function e(e) { return e(e) })"),
            module("recursive_declaration", "function f0(a) { return f0(a) }"),
            module("recursive_declaration_mangled", "function e(t) { return e(t) }"),
            module("arrows", "let f = (a) => a; f((b) => { return f(b) })"),
            module("arrows_mangled", "let e = (e) => e; e((t) => { return e(t) })"),
            script("default_of_function", "(function f(a = f) {})"),
            script("default_of_function_mangled", "(function e(t = e) {})"),
            script("default_of_function_by_one_name", "(function e(e = e) {})"),
            script("direct_eval", 'function f(a) { eval("a"); function g(b) { return b } }'),
            script("direct_eval_mangled", 'function f(a) { eval("a"); function g(e) { return e } }'),
            script("direct_eval_renamed", 'function f(t) { eval("a"); function g(e) { return e } }'),
            script("direct_eval_by_kept_name", 'function f(a) { eval("a"); function g(a) { return a } }'),
            module("indirect_eval", 'let f = eval; let x = 1; f("x")'),
            module("indirect_eval_mangled", 'let e = eval; let t = 1; e("x")'),
            script("optional_eval", 'function f(a) { return eval?.("a") }'),
            script("optional_eval_mangled", 'function f(e) { return eval?.("a") }'),
            script("with_statement", "function f(o, a) { with (o) { a; let b = 1; b } }"),
            script("with_statement_mangled", "function f(o, a) { with (o) { a; let e = 1; e } }"),
            script("with_statement_renamed", "function f(o, t) { with (o) { t; let e = 1; e } }"),
            script("arguments_declared", "function f(arguments, a) { return arguments }"),
            script("arguments_declared_mangled", "function f(arguments, e) { return arguments }"),
            script("arguments_renamed", "function f(t, e) { return t }"),
            module("new_target", "function f(target) { return new.target }"),
            module("new_target_mangled", "function e(e) { return new.target }"),
            module("new_target_renamed", "function e(e) { return new.e }"),
            module("function_in_default", "function f(a, b = function (c) { return a }) {}"),
            module("function_in_default_mangled", "function e(e, t = function (t) { return e }) {}"),
            module("function_in_default_captured", "function e(e, t = function (e) { return e }) {}"),
            script(
                "umd_wrapper",
                "(function (root, factory) { root.lib = factory() })(this, function () { var count = 0; "
                "function next(step) { count += step; return count } return { next: next } })",
            ),
            script(
                "umd_wrapper_mangled",
                "(function (e, t) { e.lib = t() })(this, function () { var e = 0; "
                "function t(t) { e += t; return e } return { next: t } })",
            ),
            script(
                "umd_wrapper_captured",
                "(function (e, t) { e.lib = t() })(this, function () { var e = 0; "
                "function t(e) { e += e; return e } return { next: t } })",
            ),
        ],
    ),
    "Modules": (
        "Imports and exports.",
        [
            module("exports", "export const x = 1; let y = x; export { y as z }"),
            module("exports_mangled", "export const x = 1; let e = x; export { e as z }"),
            module("exports_renamed", "export const t = 1; let e = t; export { e as z }"),
            module("exports_by_another_name", "export const x = 1; let e = x; export { e as e }"),
            module("exported_function", "export function f(a) { return a }"),
            module("exported_function_mangled", "export function f(e) { return e }"),
            module("exported_again", "var x = 1; export var x; let y = x"),
            module("exported_again_mangled", "var x = 1; export var x; let e = x"),
            module("exported_again_renamed", "var t = 1; export var t; let e = t"),
            module("imports", 'import { a } from "m"; a'),
            module("imports_mangled", 'import { a as e } from "m"; e'),
            module("imports_of_another_name", 'import { e } from "m"; e'),
            module("passed_on", 'let a = 1; export { a as b } from "m"; a'),
            module("passed_on_mangled", 'let e = 1; export { a as b } from "m"; e'),
            module("passed_on_of_another_name", 'let e = 1; export { e as b } from "m"; e'),
            module("all_passed_on", 'let a = 1; export * as a from "m"; a'),
            module("all_passed_on_mangled", 'let e = 1; export * as a from "m"; e'),
            module("all_passed_on_by_another_name", 'let e = 1; export * as e from "m"; e'),
            module("attributes", 'import { a } from "m" with { a: "b" }; a'),
            module("attributes_mangled", 'import { a as e } from "m" with { a: "b" }; e'),
            module("attributes_renamed", 'import { a as e } from "m" with { e: "b" }; e'),
            module("import_meta", "let meta = import.meta; meta"),
            module("import_meta_mangled", "let e = import.meta; e"),
            module("import_meta_renamed", "let e = import.e; e"),
        ],
    ),
    "Classes": (
        "Classes, their own names and static blocks.",
        [
            module("own_name", "let A = 1; (class A extends A { [A]() { return A } })"),
            module("own_name_mangled", "let e = 1; (class e extends e { [e]() { return e } })"),
            module("own_name_unseen_in_heritage", "let e = 1; (class t extends e { [t]() { return t } })"),
            module("own_name_unseen_in_key", "let e = 1; (class t extends t { [e]() { return t } })"),
            module("own_name_unseen_in_body", "let e = 1; (class t extends t { [t]() { return e } })"),
            module("class_in_heritage", "class A extends (class B { m() { return A } }) {}"),
            module("class_in_heritage_mangled", "class e extends (class t { m() { return e } }) {}"),
            module("class_in_heritage_captured", "class e extends (class e { m() { return e } }) {}"),
            module("block_in_class", "let x = 1; class A { static { var x = 2; x } } x"),
            module("block_in_class_mangled", "let e = 1; class t { static { var e = 2; e } } e"),
            module("block_in_class_by_three_names", "let e = 1; class t { static { var n = 2; n } } e"),
            module("block_in_class_seen_behind", "let e = 1; class t { static { var n = 2; n } } n"),
        ],
    ),
    "PrivateNames": (
        "Private members of classes.",
        [
            module(
                "private_members",
                "class A { #x; get #y() {} set #y(v) {} m() { class B { #z; n(o) { return o.#x } } } }",
            ),
            module(
                "private_members_mangled",
                "class e { #e; get #t() {} set #t(e) {} m() { class e { #n; n(e) { return e.#e } } } }",
            ),
            module(
                "private_members_captured",
                "class e { #e; get #t() {} set #t(e) {} m() { class e { #e; n(e) { return e.#e } } } }",
            ),
            module(
                "private_chain",
                "class A { #x; m() { class B { #x; n() { class C { #y; k(o) { return o.#x } } } } } }",
            ),
            module(
                "private_chain_mangled",
                "class e { #e; m() { class e { #t; n() { class e { #n; k(e) { return e.#t } } } } } }",
            ),
            module(
                "private_chain_past_its_class",
                "class e { #e; m() { class e { #t; n() { class e { #n; k(e) { return e.#e } } } } } }",
            ),
            module("heritage", "class A { #x; m(o) { return class extends o.#x { #x; } } }"),
            module("heritage_mangled", "class e { #e; m(e) { return class extends e.#e { #t; } } }"),
            module("computed_key", "class A { #x; m(o) { return class { [o.#x]; #y; } } }"),
            module("computed_key_mangled", "class e { #e; m(e) { return class { [e.#e]; #t; } } }"),
            module("computed_key_captured", "class e { #e; m(e) { return class { [e.#e]; #e; } } }"),
            module("computed_key_of_its_class", "class e { #e; m(e) { return class { [e.#t]; #t; } } }"),
            module("open_class", 'class A { #x; m() { eval("this.#x") } }'),
            module("open_class_renamed", 'class A { #e; m() { eval("this.#x") } }'),
            module(
                "open_class_around",
                'class A { #e; m() { eval("") } static n() { class B { #y; k(o) { return o.#e } } } }',
            ),
            module(
                "open_class_around_mangled",
                'class A { #e; m() { eval("") } static n() { class e { #t; k(e) { return e.#e } } } }',
            ),
        ],
    ),
    "KeptNames": (
        "Names that functions and classes take from their bindings.",
        [
            module("named_function", "function foo() {}"),
            module("named_function_renamed", "function e() {}"),
            module("assigned_function", "var foo; foo ||= function () {}"),
            module("assigned_function_renamed", "var e; e ||= function () {}"),
            module("named_expression", "var foo = function bar() {}"),
            module("named_expression_mangled", "var e = function bar() {}"),
            module("initial_values", "let foo = function () {}; let Bar = class {}"),
            module("initial_values_for_functions", "let foo = function () {}; let e = class {}"),
            module("initial_values_for_classes", "let e = function () {}; let Bar = class {}"),
            module("initial_arrow", "let foo = () => 1"),
            module("named_class_expression", "let x = class Foo {}"),
            module("named_class_expression_mangled", "let e = class Foo {}"),
            module("parameter_default", "function foo(a = function () {}) {}"),
            module("parameter_default_mangled", "function foo(e = function () {}) {}"),
            module("target_default", "var foo; [foo = function () {}] = []"),
            module("target_default_renamed", "var e; [e = function () {}] = []"),
            module("class_by_default", "var [Foo = class {}] = []"),
            module("class_by_default_renamed", "var [e = class {}] = []"),
            module("function_in_rest", "var [...foo] = [function () {}]"),
            module("function_in_rest_mangled", "var [...e] = [function () {}]"),
            module("default_in_rest", "var [...[a = function () {}]] = []"),
            module("default_in_rest_mangled", "var [...[e = function () {}]] = []"),
            module("second_default", "var [a = 1, a = function () {}] = []"),
            module("second_default_mangled", "var [e = 1, e = function () {}] = []"),
            module("first_default", "var [a = function () {}, a = 1] = []"),
            module("first_default_renamed", "var [e = function () {}, e = 1] = []"),
            script("class_in_function", "(function f() { class f {} f })"),
            script("class_in_function_renamed", "(function e() { class f {} f })"),
            script("class_in_function_mangled", "(function e() { class e {} e })"),
            script("class_in_function_for_functions", "(function f() { class e {} e })"),
        ],
    ),
    "Faulty": (
        "Trees with faults in their scopes, and trees beside them that have none.",
        [
            module("redeclared", "let x; var x"),
            module("parameter_redeclared", "function f(a) { let a }"),
            module("catch_parameter_redeclared", "try {} catch (e) { let e }"),
            module("block_function_redeclared", "{ function g() {} function g() {} }"),
            module("crossed", "{ let x; { var x } }"),
            module("catch_crossed", "try {} catch (e) { var e }"),
            module("using_crossed", "{ using x = a; var x }"),
            module("body_reached", "function f(a = b) { var b }"),
            module("body_reached_from_inside", "function f(a = function () { return b }) { var b }"),
            module("own_name_reached", "(function f(a = f) { var f })"),
            module("parameter_reached", "function f(b, a = b) { var b }"),
            module("undeclared_private", "this.#q"),
            script("sloppy_function", "{ function g() {} }"),
            script("sloppy_function_with_directive", '{ function g() { "use strict" } }'),
            module("strict_function", "{ function g() {} }"),
            module("strict_function_mangled", "{ function e() {} }"),
            script("directed_function", '"use strict"; { function g() {} }'),
            script("function_in_directed", 'function f() { "use strict"; { function g() {} } }'),
            script("function_in_class", "class A { m() { { function g() {} } } }"),
            script("async_function_in_block", "{ async function g() {} }"),
            script("joined", "var x; var x; function x() {}"),
            module("declared_inside", "let x; function f() { var x }"),
        ],
    ),
}

# ---- reading

KINDS = ["var", "let", "const", "using", "await using"]
OPERATORS = ["=", "+=", "-=", "*=", "/=", "%=", "**=", "<<=", ">>=", ">>>=", "|=", "^=", "&=", "||=", "&&=", "??="]
METHODS = ["constructor", "method", "get", "set"]
TOKEN = re.compile(r"""\s*(#?[A-Za-z_$][\w$]*|\d+|"[^"]*"|\.\.\.|\|\|=|\+=|=>|\?\.|::|[^\s])""")
NAME = re.compile(r"[A-Za-z_$]")

NULL, ON, OFF = "null", "on", "off"


def codes(text):
    return "codes", json.dumps(text, ensure_ascii=False)


class Parser:
    def __init__(self, text):
        self.tokens = TOKEN.findall(text)
        self.at = 0

    def peek(self, ahead=0):
        return self.tokens[self.at + ahead] if self.at + ahead < len(self.tokens) else ""

    def eat(self, token):
        if self.peek() == token:
            self.at += 1
            return True
        return False

    def need(self, token):
        if not self.eat(token):
            raise SyntaxError(f"{token} wanted at {self.tokens[self.at:]}")

    def take(self):
        self.at += 1
        return self.tokens[self.at - 1]

    def is_name(self, ahead=0):
        return bool(NAME.match(self.peek(ahead)))

    def listed(self, item, end):
        """Items divided by commas up to the end, which is taken too."""
        items = []
        while not self.eat(end):
            items.append(item())
            if self.peek() != end:
                self.need(",")
        return items

    # names

    def ident(self):
        if not self.is_name():
            raise SyntaxError(f"a name wanted at {self.tokens[self.at:]}")
        return "ident", codes(self.take())

    def key(self):
        token = self.take()
        return ("private", codes(token[1:])) if token.startswith("#") else ("ident", codes(token))

    # patterns

    def pattern(self):
        if self.eat("["):
            return "array_pattern", self.listed(self.element, "]")
        if self.eat("{"):
            return "object_pattern", self.listed(self.pattern_property, "}")
        return self.ident()

    def with_default(self, pattern):
        return ("default_at", pattern, self.expression()) if self.eat("=") else pattern

    def element(self):
        if self.eat("..."):
            return "rest", self.pattern()
        return self.with_default(self.pattern())

    def pattern_property(self):
        key = self.ident()
        if self.eat(":"):
            return "property", key, self.with_default(self.pattern())
        return "shorthand", key, self.with_default(key)

    # expressions

    def expression(self):
        start = self.at
        left = self.operand()
        if self.peek() == "=" and left[0] in ("array", "object"):
            self.at = start
            left = self.pattern()
        if self.peek() in OPERATORS:
            return "assignment", str(OPERATORS.index(self.take())), left, self.expression()
        return left

    def operand(self):
        value = self.primary()
        while True:
            if self.eat("."):
                value = ("member", value, self.key())
            elif self.eat("("):
                value = ("call", value, self.listed(self.expression, ")"))
            elif self.eat("?."):
                self.need("(")
                value = ("optional_call", value, self.listed(self.expression, ")"))
            else:
                return value

    def is_arrow(self):
        """Whether the parentheses that begin here are an arrow function's."""
        depth = ahead = 0
        while True:
            depth += {"(": 1, ")": -1}.get(self.peek(ahead), 0)
            ahead += 1
            if depth == 0:
                return self.peek(ahead) == "=>"

    def arrow(self):
        self.need("(")
        params = self.listed(self.element, ")")
        self.need("=>")
        if self.peek() == "{":
            return "arrow_with_body", params, self.block()
        return "arrow", params, self.expression()

    def meta_property(self):
        meta = self.ident()
        self.need(".")
        return "meta_property", meta, self.ident()

    def primary(self):
        if self.peek() in ("new", "import") and self.peek(1) == ".":
            return self.meta_property()
        if self.peek() == "(" and self.is_arrow():
            return self.arrow()
        if self.eat("("):
            value = self.expression()
            self.need(")")
            return value
        if self.eat("["):
            return "array", self.listed(self.expression, "]")
        if self.eat("{"):
            return "object", self.listed(self.member, "}")
        if self.eat("this"):
            return "this"
        if self.eat("function"):
            return ("function_expression", self.ident() if self.is_name() else NULL, *self.function_rest())
        if self.eat("class"):
            name = self.ident() if self.is_name() and self.peek() != "extends" else NULL
            return ("class_expression", name, *self.class_rest())
        if self.peek().isdigit():
            digits = self.take()
            return "number", digits, codes(digits)
        if self.peek().startswith('"'):
            return self.string()
        return self.ident()

    def string(self):
        raw = self.take()
        return "string", codes(raw[1:-1]), codes(raw)

    def member(self):
        key = self.ident()
        if self.eat("::"):
            return "shorthand", key, self.expression()
        return ("property", key, self.expression()) if self.eat(":") else ("shorthand", key, key)

    # functions and classes

    def function_rest(self):
        self.need("(")
        params = self.listed(self.element, ")")
        self.need("{")
        return params, self.statements("}")

    def class_rest(self):
        heritage = self.operand() if self.eat("extends") else NULL
        self.need("{")
        members = []
        while not self.eat("}"):
            members.append(self.class_member())
        return heritage, members

    def class_member(self):
        static = ON if self.eat("static") else OFF
        if static == ON and self.peek() == "{":
            return "static_block", self.block()
        if self.eat("["):
            return self.computed_member()
        kind = self.take() if self.peek() in ("get", "set") and self.peek(1) != "(" else "method"
        key = self.key()
        if self.eat(";"):
            return "field", key
        return ("method", str(METHODS.index(kind)), static, key, *self.function_rest())

    def computed_member(self):
        key = self.expression()
        self.need("]")
        return ("computed_field", key) if self.eat(";") else ("computed_method", key, *self.function_rest())

    # statements

    def statements(self, end):
        items = []
        while not self.eat(end):
            items.append(self.statement())
        return items

    def block(self):
        self.need("{")
        return self.statements("}")

    def statement(self):
        token, after = self.peek(), self.peek(1)
        if token == "{":
            return "block", self.block()
        if token in KINDS and self.is_name(1) or token in ("var", "let", "const") or (token, after) == ("await", "using"):
            return self.declaration()
        if token == "function":
            self.take()
            return ("function", self.ident(), *self.function_rest())
        if (token, after) == ("async", "function"):
            self.at += 2
            return ("async_function", self.ident(), *self.function_rest())
        if token == "class":
            self.take()
            return ("class", self.ident(), *self.class_rest())
        if token == "switch":
            return self.switch()
        if token == "try":
            return self.try_catch()
        if token == "with":
            return self.with_statement()
        if token == "for":
            return self.loop()
        if token in ("import", "export") and after != ".":
            return self.export() if self.take() == "export" else self.imports()
        if self.is_name() and after == ":":
            return "labeled", self.ident(), self.after_colon()
        return self.simple(token)

    def simple(self, token):
        if token == "return":
            self.take()
            made = ("gives_back", self.expression())
        elif token == "break":
            self.take()
            made = ("leave", self.ident())
        elif token.startswith('"'):
            made = ("directive", *self.string()[1:])
        else:
            made = ("statement", self.expression())
        self.eat(";")
        return made

    def after_colon(self):
        self.need(":")
        return self.statement()

    def declaration(self):
        kind = self.take()
        if kind == "await":
            kind += " " + self.take()
        declarators = [self.declarator()]
        while self.eat(","):
            declarators.append(self.declarator())
        self.eat(";")
        return "declaration", str(KINDS.index(kind)), declarators

    def declarator(self):
        pattern = self.pattern()
        return "declarator", pattern, self.expression() if self.eat("=") else NULL

    def in_parentheses(self, item):
        self.need("(")
        value = item()
        self.need(")")
        return value

    def switch(self):
        self.take()
        discriminant = self.in_parentheses(self.expression)
        self.need("{")
        cases = []
        while not self.eat("}"):
            self.need("case")
            test = self.expression()
            self.need(":")
            statements = []
            while self.peek() not in ("case", "}"):
                statements.append(self.statement())
            cases.append(("case", test, statements))
        return "switch", discriminant, cases

    def try_catch(self):
        self.take()
        tried = self.block()
        self.need("catch")
        pattern = self.in_parentheses(self.pattern) if self.peek() == "(" else NULL
        return "try_catch", tried, pattern, self.block()

    def loop(self):
        """A loop over what its head declares, by one declaration."""
        self.take()
        self.need("(")
        kind, pattern = self.take(), self.pattern()
        if self.peek() in ("in", "of"):
            maker, value = "for_" + self.take(), NULL
            rest = [self.expression()]
        else:
            maker, value = "for_loop", self.expression() if self.eat("=") else NULL
            self.need(";")
            rest = [self.expression(), NULL]
            self.need(";")
        self.need(")")
        head = "declaration", str(KINDS.index(kind)), [("declarator", pattern, value)]
        return (maker, head, *rest, self.statement())

    def with_statement(self):
        self.take()
        return "with_object", self.in_parentheses(self.expression), self.statement()

    def specifier(self):
        name = self.ident()
        return name, self.ident() if self.eat("as") else name

    def source(self):
        self.need("from")
        return self.string()

    def export(self):
        if self.eat("*"):
            self.need("as")
            made = ("export_all", self.ident(), self.source())
        elif self.eat("{"):
            names = [("exported", *pair) for pair in self.listed(self.specifier, "}")]
            made = ("export_from", names, self.source()) if self.peek() == "from" else ("export_names", names)
        else:
            return "export", self.statement()
        self.eat(";")
        return made

    def attribute(self):
        key = self.ident()
        self.need(":")
        return "attribute", key, self.string()

    def imports(self):
        self.need("{")
        names = [("imported", *pair) for pair in self.listed(self.specifier, "}")]
        source, attributes = self.source(), []
        if self.eat("with"):
            self.need("{")
            attributes = self.listed(self.attribute, "}")
        self.eat(";")
        return "import_from", names, source, attributes


def tree(source_type, text):
    return source_type, Parser(text).statements("")


# ---- writing

WIDTH = 120


def flat(term):
    """A term on one line; one in an argument stands in parentheses."""
    if isinstance(term, str):
        return term
    if isinstance(term, list):
        return " ∷ ".join([flat(item) for item in term] + ["[]"])
    return " ".join([term[0]] + [argument(part) for part in term[1:]])


def argument(term):
    text = flat(term)
    return text if isinstance(term, str) or text == "[]" else f"({text})"


def lines(term):
    """The term of a whole tree, a statement a line where one line is too short, in the layout of `rt fmt`."""
    source_type, statements = term
    text = flat(term)
    if 4 + len(text) <= WIDTH:
        return text
    return f"{source_type}\n    (" + "\n    ∷ ".join([flat(item) for item in statements] + ["[])"])


def makers_of(term):
    if isinstance(term, list):
        return set().union(*[makers_of(item) for item in term])
    if isinstance(term, tuple):
        return {term[0]}.union(*[makers_of(part) for part in term[1:]])
    return {term} if term.isalpha() else set()


def file_text(about, trees):
    made = [(name, source_type, text, tree(source_type, text)) for name, source_type, text in trees]
    makers = sorted(makers_of([term for *_, term in made]) - {"codes"})
    out = f"-- {about} Made by tools/worked_examples.py.\n"
    out += "use Rattle.std.specs.Prelude.{[], ◌∷◌, codes}\n"
    out += "use Rattle.tree_nodes.specs.Tree.{Parts}\n"
    out += f"use Rattle.worked_examples.specs.Makers.{{{', '.join(makers)}}}\n"
    for name, source_type, text, term in made:
        kind = "script" if source_type == "script" else "module"
        out += f"\n-- {kind}: {text}\n" if text else f"\n-- {kind} without a statement\n"
        out += f"abbrev pub {name} : Parts\n{name} ="
        body = lines(term)
        out += f" {body}\n" if len(name) + 3 + len(body) <= WIDTH and "\n" not in body else f"\n    {body}\n"
    return out


def main():
    stale = []
    for file, (about, trees) in TREES.items():
        path, text = SPECS / f"{file}.antt", file_text(about, trees)
        if "--check" in sys.argv[1:]:
            if not path.exists() or path.read_text(encoding="utf-8") != text:
                stale.append(path.name)
        else:
            path.write_text(text, encoding="utf-8")
    if stale:
        print("not up to date: " + ", ".join(stale))
    return 1 if stale else 0


if __name__ == "__main__":
    sys.exit(main())

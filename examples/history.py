#!/usr/bin/env python3
"""Histories of other recorders as lines for `kv_linearize`: `submit` and `accept` lines in hexadecimal, between a first line and `end`.

    examples/history.py json < HISTORY > LINES      a JSON object a line
    examples/history.py edn < HISTORY > LINES       Jepsen's operations in EDN: one behind the other, or in a vector
    kv_linearize < LINES

An operation has `process` (a number), `type` (`invoke`, `ok`, `fail`, `info`), `f` and `value`; other fields are passed over, and so are
operations whose process is a word, as Jepsen's `:nemesis`: how many, is said on standard error. `f` is `read` or `get`, `write` or `put`,
`delete`, or `cas` (its value the pair of the old value and the new one; its `ok` means that it was done, a comparison that failed is a
`fail`). The key is the field `key`, or else the first of a pair with the option `--keyed`, as `jepsen.independent` has it, or else `x`. A key
has 1 to 64 bytes, a value at most 256: write a digest in place of longer ones. No key has a value before the first operation.

What a write answers here is the value before it. Where the `ok` of a write or a delete has a field `previous` (null or nil: the key was
absent), that is its result; where it has none, a `?` stands for it: the operation has to be in the order, with any result. `info` leaves an
operation open; what ended with `fail` did not happen, and is left out.

What comes out names no order: `kv_linearize` finds one. Don't take the slots of accepted replies for one: an operation that was sent again has
two slots, is executed at the first, and may have been accepted by the second. Traces of nodes have the order of a run of this repository.
"""

import json
import sys

KEY_BYTES, VALUE_BYTES = 64, 256
FUNCTIONS = {"read": "get", "get": "get", "write": "put", "put": "put", "delete": "delete", "cas": "cas"}
CLIENTS = 16


class Malformed(Exception):
    """What is read is no history."""


def edn_tokens(text):
    """The tokens of EDN: brackets, strings as pairs, and words."""
    at = 0
    while at < len(text):
        c = text[at]
        if c.isspace() or c == ",":
            at += 1
        elif c == ";":
            at = text.find("\n", at) if "\n" in text[at:] else len(text)
        elif c == '"':
            end = at + 1
            while end < len(text) and text[end] != '"':
                end += 2 if text[end] == "\\" else 1
            yield ("string", json.loads(text[at : end + 1]))
            at = end + 1
        elif text[at : at + 2] in ("#{", "#_"):
            yield text[at : at + 2]
            at += 2
        elif c in "{}[]()":
            yield c
            at += 1
        else:
            end = at
            while end < len(text) and not text[end].isspace() and text[end] not in ',;"{}[]()':
                end += 1
            yield text[at:end]
            at = end


CLOSING = {"{": "}", "[": "]", "(": ")", "#{": "}"}


def edn_form(tokens):
    """The form that begins with the next token; the tokens that are left stand in a list, the next one last."""
    if not tokens:
        raise Malformed("it ends within a form")
    token = tokens.pop()
    if isinstance(token, tuple):
        return token[1]
    if token in CLOSING:
        forms = edn_forms(tokens, CLOSING[token])
        return dict(zip(forms[::2], forms[1::2])) if token == "{" else forms
    if token.startswith("#"):
        return edn_form(tokens)
    if token in ("nil", "true", "false"):
        return {"nil": None, "true": True, "false": False}[token]
    try:
        return int(token.rstrip("N"))
    except ValueError:
        return token.removeprefix(":")


def edn_forms(tokens, closing):
    """The forms up to a bracket that closes, or to the end."""
    forms = []
    while tokens:
        if tokens[-1] == closing:
            tokens.pop()
            return forms
        if tokens[-1] == "#_":
            tokens.pop()
            edn_form(tokens)
        else:
            forms.append(edn_form(tokens))
    if closing is not None:
        raise Malformed(f"'{closing}' is missing")
    return forms


def json_of(number, line):
    try:
        return json.loads(line)
    except ValueError as reason:
        raise Malformed(f"line {number}: {reason}") from None


def operations(form, text):
    """The operations of a history, as dictionaries."""
    if form == "json":
        return [json_of(number, line) for number, line in enumerate(text.splitlines(), 1) if line.strip()]
    forms = edn_forms(list(edn_tokens(text))[::-1], None)
    return forms[0] if len(forms) == 1 and isinstance(forms[0], list) else forms


def text_of(value):
    """A value as text, in bytes."""
    if isinstance(value, (list, dict)):
        raise Malformed(f"{value} is no value of a register (pairs with a key in front want --keyed)")
    return str(value).encode()


def field(what, least, most, value):
    """A key or a value of an op: its length in two bytes, and its bytes."""
    text = text_of(value)
    if not least <= len(text) <= most:
        raise Malformed(f"a {what} of {len(text)} bytes; it has {least} to {most}")
    return len(text).to_bytes(2, "big") + text


def key_field(key):
    return field("key", 1, KEY_BYTES, key)


def value_field(value):
    return field("value", 0, VALUE_BYTES, value)


def op_of(function, key, value):
    """The bytes of an op."""
    if function == "get":
        return b"G" + key_field(key)
    if function == "put":
        return b"P" + key_field(key) + value_field(value)
    if function == "delete":
        return b"D" + key_field(key)
    old, new = value
    return b"C" + key_field(key) + value_field(old) + value_field(new)


def found(value):
    """What a get answers."""
    return b"none" if value is None else b"=" + value_field(value)[2:]


def result_of(function, value, operation):
    """The result in hexadecimal, or `?` where it was not recorded."""
    if function == "get":
        return found(value).hex()
    if function == "cas":
        return b"yes".hex()
    return found(operation["previous"]).hex() if "previous" in operation else "?"


class Lines:
    """The lines of a history, how many operations they are of, and how many were passed over."""

    def __init__(self, keyed):
        self.keyed, self.lines, self.last_ids, self.under_way, self.taken, self.passed = keyed, [], [0] * CLIENTS, {}, 0, 0

    def take(self, operation):
        """The next operation of the history."""
        process, kind = operation.get("process"), operation.get("type")
        if isinstance(process, str) and not process.lstrip("-").isdigit():
            self.passed += 1
            return
        if type(process) is not int:
            raise Malformed(f"the process {process!r} is neither a number nor a word")
        self.taken += 1
        function, value = FUNCTIONS.get(operation.get("f")), operation.get("value")
        if function is None:
            raise Malformed(f"there is no operation '{operation.get('f')}'")
        key = operation.get("key", "x")
        if self.keyed and value is not None:
            key, value = value
        if kind == "invoke":
            self.begin(process, op_of(function, key, value), value)
        else:
            self.end(process, kind, function, value, operation)

    def begin(self, process, op, value):
        client = process % CLIENTS
        self.last_ids[client] += 1
        name = f"c{client} {self.last_ids[client]}"
        self.under_way[process] = (name, len(self.lines), value)
        self.lines.append(f"submit {name} {op.hex()}")

    def end(self, process, kind, function, value, operation):
        if process not in self.under_way:
            raise Malformed(f"process {process} ends an operation that it did not begin")
        name, place, asked = self.under_way.pop(process)
        if kind == "fail":
            self.lines[place] = None
        elif kind == "ok":
            if function == "cas" and value not in (None, asked):
                raise Malformed("the ok of a cas has another value than its pair; a comparison that failed is a fail")
            self.lines.append(f"accept {name} {result_of(function, value, operation)}")
        elif kind != "info":
            raise Malformed(f"there is no type '{kind}'")


def lines_of(history, keyed):
    """The lines of a history."""
    found = Lines(keyed)
    for number, operation in enumerate(history, 1):
        try:
            found.take(operation)
        except (Malformed, ValueError, TypeError, AttributeError) as reason:
            raise Malformed(f"operation {number}: {reason}") from None
    return found


def main(words):
    keyed = "--keyed" in words
    words = [word for word in words if word != "--keyed"]
    if words not in (["json"], ["edn"]):
        sys.exit("usage: history.py json|edn [--keyed] < HISTORY > LINES")
    text = sys.stdin.read()
    try:
        found = lines_of(operations(words[0], text), keyed)
        if text.strip() and not found.taken:
            raise Malformed("no operation in it has a process with a number")
    except (Malformed, ValueError, TypeError, AttributeError, StopIteration) as reason:
        sys.exit(f"history.py: this is no history: {reason}")
    lines = [line for line in found.lines if line is not None]
    print("transcript 1 replicas 1 sequencers 1 clients 16", *lines, "end", sep="\n")
    print(f"history.py: {found.taken} operations, {found.passed} passed over", file=sys.stderr)


if __name__ == "__main__":
    main(sys.argv[1:])

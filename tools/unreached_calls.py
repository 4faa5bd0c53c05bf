#!/usr/bin/env python3
"""Lists the public calls of the crates that no test, program or case reaches.

A body that always answers want of memory meets its contract. So a public call needs a test or a program that makes it, and
one that nobody needs is better removed. A public call is here a function or a constant that a crate's root re-exports, a
method or a constant of a public type, or a method of a public trait.

  tools/unreached_calls.py [--own | --all]

It reads the sources alone, builds nothing, and takes two seconds. It prints each public call that no `main` and no `#[test]`
reaches. What is to stay so is in tools/unreached_calls.txt: on each line a name, a blank and the reason. Functions with an
empty body and no answer, which are laws, are left out.

Status 1 says that a call is unreached and not in that file, or that one in it is reached or gone. Status 2 says that a source
could not be read. The last line counts. With --own it also prints what is public though only its own crate uses it, and with
--all each public call with its answer. Neither changes the status.

How it reads. Comments, texts, attributes, ghost items and contract clauses are taken out. What is left of a function is what
it uses. A name is looked up in the function's module, among its `use` lines, and in the crate that a path names. A method is
looked up in the type of what is before the dot, if that is a name with one plain binding, a field, or a call, and each
type is written out.

It says 'reached' too often, so that an unreached call may be missing from the list:
- Each branch counts, whether or not a run can take it.
- If the type before the dot is not clear, `x.name(..)` reaches each method of that name and that number of arguments in the
  crate and those below it. The type of the method must be one that something reached names.
- A call over a type parameter reaches each method of that name that a trait has, in all types.
- A function's name counts as a use of it, even if it is a variable of a pattern.
- The methods of another library's traits (`Drop`, `Ord`, `From`, ..) count as used wherever their type is.

It says 'reached' too seldom only for a call that a macro spells from parts of names, for one by a `Deref` of a type of this
repository, and for one through `use ..::*`. The first two do not occur here. At the third it stops with status 2.
"""
import os
import re
import sys

TOP = os.path.dirname(os.path.dirname(os.path.abspath(__file__)))
CRATES = os.path.join(TOP, "crates")
LISTED = os.path.join(TOP, "tools", "unreached_calls.txt")

CLAUSES = {"requires", "ensures"}
WORDS = set("as break const continue crate dyn else enum extern false fn for if impl in let loop match mod move mut pub ref return "
            "self Self static struct super trait true type unsafe use where while ghost".split())
TOKEN = re.compile(r"""
    (?P<gone>\s+|//[^\n]*|/\*.*?\*/)
  | (?P<text>b?r(?P<hash>\#*)"(?:.*?)"(?P=hash)|b?"(?:\\.|[^"\\])*"|b?'(?:\\[^u]|\\u\{[^}]*\}|[^\\'])')
  | (?P<life>'[A-Za-z_]\w*)
  | (?P<number>[0-9][0-9A-Za-z_]*(?:\.[0-9][0-9_]*)?)
  | (?P<name>[^\W\d]\w*)
  | (?P<mark>::|->|=>|\.\.=|\.\.|.)
""", re.X | re.S)
OPEN, CLOSE = {"(": ")", "[": "]", "{": "}"}, {")", "]", "}"}


class Unread(Exception):
    """A source that this tool cannot read."""


def tokens_of(text):
    """The tokens of a source, as pairs of kind and text, without blanks and comments."""
    return [(m.lastgroup, m.group()) for m in TOKEN.finditer(text) if m.lastgroup not in ("gone", "hash")]


def group_end(tokens, i):
    """The place after the group that opens at i."""
    depth = 0
    for place in range(i, len(tokens)):
        kind, token = tokens[place]
        if kind == "mark" and token in OPEN:
            depth += 1
        elif kind == "mark" and token in CLOSE:
            depth -= 1
            if depth == 0:
                return place + 1
    raise Unread("a bracket isn't closed")


def next_of(tokens, i, token):
    """The place of the next such mark."""
    while tokens[i] != ("mark", token):
        i += 1
    return i


def bare(tokens):
    """The tokens without attributes other than those of tests, ghost items, contract clauses and proof steps."""
    kept, i = [], 0
    while i < len(tokens):
        kind, token = tokens[i]
        following = tokens[i + 1] if i + 1 < len(tokens) else ("", "")
        if (kind, token) == ("mark", "#") and following[1] in ("[", "!"):
            start = i + 1 if following[1] == "[" else i + 2
            end = group_end(tokens, start)
            inner = [t for _, t in tokens[start + 1:end - 1]]
            if inner == ["test"]:
                kept.append(("test", "#[test]"))
            i = end
        elif (kind, token) == ("name", "ghost"):
            if kept and kept[-1] == ("name", "pub"):
                kept.pop()
            if following == ("name", "use"):
                i = next_of(tokens, i, ";") + 1
            else:
                i = group_end(tokens, next_of(tokens, i, "{"))
                if i < len(tokens) and tokens[i][1] in (";", ","):
                    i += 1
        elif kind == "name" and token in CLAUSES:
            i = group_end(tokens, next_of(tokens, i, "{"))
            while i < len(tokens) and tokens[i] == ("mark", ";") and kept and kept[-1] == ("mark", ";"):
                i += 1
        elif (kind, token) == ("name", "prove") and following == ("mark", "!"):
            i = group_end(tokens, i + 2)
        else:
            kept.append((kind, token))
            i += 1
    return kept


class Item:
    """A function, a method, a constant, a type, a trait or a macro of the sources."""

    def __init__(self, kind, name, module, is_pub, head, body, owner=None, trait=None, is_test=False):
        self.kind, self.name, self.module, self.is_pub, self.head, self.body = kind, name, module, is_pub, head, body
        self.owner, self.trait, self.is_test = owner, trait, is_test
        self.has_self, self.count, self.is_struct = False, None, False
        self.users = set()

    @property
    def crate(self):
        return self.module.crate

    @property
    def is_law(self):
        """Whether it does nothing: no answer and no step."""
        marks = [t for _, t in self.head]
        return self.kind == "fn" and self.body == [] and "->" not in marks

    def title(self):
        return f"{self.crate}::" + (f"{self.owner_name}::" if self.owner_name else "") + self.name

    @property
    def owner_name(self):
        return self.owner if isinstance(self.owner, str) else (self.owner.name if self.owner else "")


class Module:
    """A module with what is named in it."""

    def __init__(self, crate, name, parent):
        self.crate, self.name, self.parent = crate, name, parent
        self.items, self.uses, self.children = {}, {}, {}

    def put(self, item):
        self.items.setdefault(item.name, []).append(item)


def params_of(tokens):
    """The pieces between the commas of a list of parameters or arguments, and whether their number is sure."""
    pieces, depth, angles, sure, some = 1, 0, 0, True, False
    for i, (kind, token) in enumerate(tokens):
        if kind == "mark" and token in OPEN:
            depth += 1
        elif kind == "mark" and token in CLOSE:
            depth -= 1
        elif depth == 0 and kind == "mark" and token == "|":
            sure = False
        elif depth == 0 and kind == "mark" and token == "<":
            if i and tokens[i - 1][1] == "::":
                sure = False
            angles += 1
        elif depth == 0 and kind == "mark" and token == ">":
            angles -= 1
        elif depth == 0 and kind == "mark" and token == "," and i + 1 < len(tokens):
            pieces += 1
        some = True
    return (pieces if some else 0), sure


def split_params(tokens):
    """The parameters of a head, with generics taken as brackets."""
    parts, part, depth, angles = [], [], 0, 0
    for kind, token in tokens:
        if kind == "mark":
            if token in OPEN:
                depth += 1
            elif token in CLOSE:
                depth -= 1
            elif token == "<":
                angles += 1
            elif token == ">":
                angles -= 1
            elif token == "," and depth == 0 and angles == 0:
                parts.append(part)
                part = []
                continue
        part.append((kind, token))
    return [p for p in parts + [part] if p]


FOREIGN, GENERIC = "a type of std", "a parameter"
OF_STD = set("Vec VecDeque String str Option Result BTreeMap BTreeSet u8 u16 u32 u64 usize i8 i16 i32 i64 isize bool char".split())


class Type:
    """A type as it is written: its tokens, and the item in which they are."""

    def __init__(self, sources, tokens, item, owner):
        i = 0
        while i < len(tokens) and (tokens[i][0] == "life" or tokens[i][1] in ("&", "mut", "dyn", "impl")):
            i += 1
        self.sources, self.tokens, self.item, self.owner = sources, tokens[i:], item, owner

    def path(self):
        """The names before its arguments."""
        names = []
        for kind, token in self.tokens:
            if kind != "name" and token != "::":
                break
            names += [token] if kind == "name" else []
        return names

    def what(self):
        """The item that it names, FOREIGN or GENERIC, or None if that is not clear."""
        path = self.path()
        if not path:
            return FOREIGN if self.tokens and self.tokens[0][1] in ("[", "(") else None
        if path == ["Self"]:
            return self.owner if isinstance(self.owner, Item) and self.owner.kind == "type" else None
        found = [it for it in self.sources.look(self.item.module, path) if isinstance(it, Item) and it.kind in ("type", "trait")]
        if found:
            return found[0] if len(found) == 1 and found[0].kind == "type" and not self.sources.aliases(found[0]) else None
        if path[-1] in OF_STD:
            return FOREIGN
        return GENERIC if len(path) == 1 and len(path[0]) == 1 else None

    def inner(self):
        """What `?` makes of it."""
        if self.path()[-1:] in (["Option"], ["Result"]) and len(self.tokens) > 2:
            start = next((i for i, (_, t) in enumerate(self.tokens) if t == "<"), None)
            if start is not None:
                return Type(self.sources, split_params(self.tokens[start + 1:-1])[0], self.item, self.owner)
        return None


class Types:
    """The types of simple expressions in a function: names, fields, calls, and `?`."""

    def __init__(self, sources, item, tokens):
        self.sources, self.item, self.tokens = sources, item, tokens
        self.params, self.lets, self.blurred, self.asked = {}, {}, set(), set()
        if item.kind == "fn":
            start = next(i for i, (_, t) in enumerate(item.head) if t == "(")
            for part in split_params(item.head[start + 1:group_end(item.head, start) - 1]):
                marks = [t for _, t in part]
                if ":" in marks:
                    names = [t for k, t in part[:marks.index(":")] if k == "name" and t != "mut"]
                    if len(names) == 1:
                        self.params[names[0]] = Type(sources, part[marks.index(":") + 1:], item, item.owner)
            self.find_bindings()

    def find_bindings(self):
        tokens = self.tokens
        for i, (kind, token) in enumerate(tokens):
            if (kind, token) == ("name", "let"):
                end = i + 1
                while end < len(tokens) and tokens[end][1] not in ("=", ";"):
                    end = group_end(tokens, end) if tokens[end][1] in OPEN else end + 1
                words = [one for one in tokens[i + 1:end] if one != ("name", "mut")]
                name = words[0][1] if words else ""
                if len(words) == 1 or (len(words) > 1 and words[1][1] == ":"):
                    if name in self.lets or name in self.params:
                        self.blurred.add(name)
                    stop = end
                    while stop < len(tokens) and tokens[stop][1] not in (";", "else", "}"):
                        stop = group_end(tokens, stop) if tokens[stop][1] in OPEN else stop + 1
                    plain = stop < len(tokens) and tokens[stop][1] == ";"
                    self.lets[name] = words[2:] if len(words) > 1 else ((end + 1, stop - 1) if plain else None)
                else:
                    self.blurred |= {t for k, t in words if k == "name"}
            elif (kind, token) == ("name", "for"):
                end = i + 1
                while end < len(tokens) and tokens[end] != ("name", "in"):
                    end += 1
                self.blurred |= {t for k, t in tokens[i + 1:min(end, i + 30)] if k == "name"}
            elif (kind, token) == ("mark", "|") and i and tokens[i - 1][1] in ("(", ",", "=", "{", ";", "=>", "move", "return"):
                end = i + 1
                while end < min(len(tokens), i + 30) and tokens[end][1] != "|":
                    end += 1
                self.blurred |= {t for k, t in tokens[i + 1:end] if k == "name"}
            elif (kind, token) == ("mark", "=>"):
                back, depth = i - 1, 0
                while back >= 0 and not (depth == 0 and tokens[back][1] in ("{", ",", "(", "[")):
                    if depth == 0 and tokens[back][1] == "}" and tokens[self.opening(back) - 1][0] != "name":
                        break  # the arm before
                    depth += (tokens[back][1] in CLOSE) - (tokens[back][1] in OPEN)
                    if tokens[back][0] == "name":
                        self.blurred.add(tokens[back][1])
                    back -= 1
        self.blurred.discard("self")

    def opening(self, end):
        """The place where the group opens that closes here."""
        depth = 0
        while True:
            depth += (self.tokens[end][1] in CLOSE) - (self.tokens[end][1] in OPEN)
            if depth == 0:
                return end
            end -= 1

    def at(self, end):
        """The type of the expression whose last token is at this place, or None."""
        tokens = self.tokens
        if end < 0:
            return None
        kind, token = tokens[end]
        if token == "?":
            of = self.at(end - 1)
            return of and of.inner()
        if token == ")":
            start = self.opening(end)
            if start == 0 or tokens[start - 1][0] != "name" or tokens[start - 1][1] in WORDS:
                return None
            name, front = tokens[start - 1][1], tokens[start - 2][1] if start > 1 else ""
            if front == ".":
                of = self.at(start - 3)
                what = of and of.what()
                made = [it for it in self.sources.members.get(name, []) if it.owner is what and it.kind == "fn"] if isinstance(what, Item) else []
            else:
                path, back = [name], start - 2
                while back > 0 and tokens[back][1] == "::" and tokens[back - 1][0] == "name":
                    path.insert(0, tokens[back - 1][1])
                    back -= 2
                if back >= 0 and tokens[back][1] == "::":
                    return None
                if path[0] == "Self":
                    made = [it for it in self.sources.members.get(path[-1], []) if it.owner is self.item.owner and len(path) == 2]
                else:
                    made = [it for it in self.sources.look(self.item.module, path) if isinstance(it, Item) and it.kind == "fn"]
            return self.answer_of(made[0]) if len(made) == 1 and made[0].kind == "fn" else None
        if kind == "number" or kind == "text":
            return None
        if kind != "name" or token in WORDS - {"self"}:
            return None
        front = tokens[end - 1][1] if end else ""
        if front == ".":
            of = self.at(end - 2)
            what = of and of.what()
            return self.field_of(what, token) if isinstance(what, Item) else None
        if front == "::":
            return None
        if token == "self":
            return Type(self.sources, [("name", "Self")], self.item, self.item.owner)
        if token in self.blurred:
            return None
        if token in self.params:
            return self.params[token]
        given = self.lets.get(token)
        if isinstance(given, list):
            return Type(self.sources, given, self.item, self.item.owner)
        if given and given[0] <= given[1] and not given[0] <= end <= given[1]:
            return self.whole(*given)
        return None

    def whole(self, first, last):
        """The type of an expression, if it is one call, name or literal of a struct as a whole."""
        tokens, i = self.tokens, first
        if (first, last) in self.asked:
            return None
        self.asked.add((first, last))
        try:
            while tokens[i][1] in ("&", "mut"):
                i += 1
            start, depth = i, 0
            while i <= last:
                token = tokens[i][1]
                if token in OPEN:
                    end = group_end(tokens, i)
                    if token == "{":
                        return Type(self.sources, tokens[start:i], self.item, self.item.owner) if end == last + 1 and all(
                            k == "name" or t == "::" for k, t in tokens[start:i]) and tokens[start][1] not in WORDS - {"Self", "crate"} else None
                    i = end
                elif token in (".", "::", "?") or tokens[i][0] == "name":
                    if tokens[i][0] == "name" and token in WORDS - {"self", "Self", "crate"}:
                        return None
                    i += 1
                else:
                    return None
            return self.at(last)
        finally:
            self.asked.discard((first, last))

    def answer_of(self, item):
        """The type that a function answers."""
        start = next(i for i, (_, t) in enumerate(item.head) if t == "(")
        end = group_end(item.head, start)
        if end >= len(item.head) or item.head[end][1] != "->":
            return None
        tokens = item.head[end + 1:]
        stop = next((i for i, one in enumerate(tokens) if one == ("name", "where")), len(tokens))
        return Type(self.sources, tokens[:stop], item, item.owner)

    def field_of(self, what, name):
        if not what.is_struct:
            return None
        start = next((i for i, (_, t) in enumerate(what.head) if t == "{"), None)
        if start is None:
            return None
        for field in split_params(what.head[start + 1:group_end(what.head, start) - 1]):
            marks = [t for _, t in field]
            if ":" in marks and marks[marks.index(":") - 1] == name:
                return Type(self.sources, field[marks.index(":") + 1:], what, what)
        return None


class Sources:
    """All crates, read."""

    def __init__(self):
        self.roots, self.below, self.items, self.shown = {}, {}, [], set()
        deps = {}
        with open(os.path.join(TOP, "crates.txt"), encoding="utf-8") as file:
            for line in file:
                name, colon, words = line.split("#")[0].partition(":")
                if colon:
                    deps[name.strip()] = [w for w in words.split()]
        for name in deps:
            seen, todo = set(), [name]
            while todo:
                one = todo.pop()
                if one not in seen:
                    seen.add(one)
                    todo += [d for d in deps.get(one, []) if d in deps]
            self.below[name] = seen
        for name in deps:
            self.read_crate(name)
        for item in self.items:
            self.tie(item)

    def read_crate(self, crate):
        src = os.path.join(CRATES, crate, "src")
        for root in ("lib.rt", "main.rt"):
            if os.path.isfile(os.path.join(src, root)):
                self.roots[crate] = self.read_file(crate, os.path.join(src, root), src, "", None)
                return
        raise Unread(f"crate {crate} has no root")

    def read_file(self, crate, path, folder, name, parent):
        module = Module(crate, name, parent)
        with open(path, encoding="utf-8") as file:
            tokens = bare(tokens_of(file.read()))
        try:
            self.read_items(tokens, module, folder)
        except (Unread, IndexError) as fault:
            raise Unread(f"{os.path.relpath(path, TOP)}: {fault or 'its end is missing'}") from None
        return module

    def read_items(self, tokens, module, folder, owner=None, trait=None, in_trait=False):
        i, is_pub, is_test = 0, False, False
        while i < len(tokens):
            kind, token = tokens[i]
            if kind == "test":
                is_test, i = True, i + 1
                continue
            if token == "pub":
                is_pub, i = True, i + 1
                if tokens[i] == ("mark", "("):
                    is_pub, i = False, group_end(tokens, i)
                continue
            if token in ("const", "unsafe") and tokens[i + 1][1] in ("fn", "unsafe"):
                i += 1
                continue
            if token == "use":
                end = next_of(tokens, i, ";")
                self.read_use(tokens[i + 1:end], module, [], is_pub and not module.parent)
                i = end + 1
            elif token == "mod":
                name = tokens[i + 1][1]
                if tokens[i + 2][1] == "{":
                    end = group_end(tokens, i + 2)
                    child = Module(module.crate, name, module)
                    self.read_items(tokens[i + 3:end - 1], child, os.path.join(folder, name))
                    i = end
                else:
                    at = os.path.join(folder, name + ".rt")
                    if not os.path.isfile(at):
                        at = os.path.join(folder, name, "mod.rt")
                    child = self.read_file(module.crate, at, os.path.join(folder, name), name, module)
                    i += 3
                module.children[name] = child
            elif token == "fn":
                i = self.read_fn(tokens, i, module, is_pub or in_trait, owner, trait, is_test)
            elif token in ("struct", "enum", "union"):
                start = i
                i += 2
                while tokens[i][1] not in ("{", "(", ";"):
                    i += 1
                end = group_end(tokens, i) if tokens[i][1] != ";" else i + 1
                if tokens[i][1] == "(":
                    end = next_of(tokens, end, ";") + 1
                self.add(Item("type", tokens[start + 1][1], module, is_pub, tokens[start + 2:end], [])).is_struct = token == "struct"
                i = end
            elif token == "trait":
                name = tokens[i + 1][1]
                start = next_of(tokens, i, "{")
                end = group_end(tokens, start)
                item = self.add(Item("trait", name, module, is_pub, tokens[i + 2:start], []))
                self.read_items(tokens[start + 1:end - 1], module, folder, owner=item, in_trait=True)
                i = end
            elif token == "impl":
                start = next_of(tokens, i, "{")
                end = group_end(tokens, start)
                of, to = self.read_impl(tokens[i + 1:start])
                self.read_items(tokens[start + 1:end - 1], module, folder, owner=to, trait=of)
                i = end
            elif token in ("const", "static", "type"):
                name = tokens[i + 1][1]
                end, depth = i, 0
                while depth or tokens[end][1] != ";":
                    depth += (tokens[end][0] == "mark") * ((tokens[end][1] in OPEN) - (tokens[end][1] in CLOSE))
                    end += 1
                what = "type" if token == "type" else "const"
                if not (what == "type" and owner):
                    self.add(Item(what, name, module, is_pub or in_trait, tokens[i + 2:end], [], owner=owner, trait=trait))
                i = end + 1
            elif token == "macro_rules":
                end = group_end(tokens, i + 3)
                self.add(Item("macro", tokens[i + 2][1], module, False, [], tokens[i + 4:end - 1]))
                i = end
            elif token in (";", ","):
                i += 1
            else:
                raise Unread(f"'{token}' begins no item")
            is_pub = is_test = False

    def read_fn(self, tokens, i, module, is_pub, owner, trait, is_test):
        name = tokens[i + 1][1]
        start = next_of(tokens, i, "(")
        end = group_end(tokens, start)
        params = split_params(tokens[start + 1:end - 1])
        stop = end
        while tokens[stop][1] not in ("{", ";"):
            stop = group_end(tokens, stop) if tokens[stop][1] in ("(", "[") else stop + 1
        head = tokens[i + 2:stop]
        body, after = (None, stop + 1)
        if tokens[stop][1] == "{":
            after = group_end(tokens, stop)
            body = tokens[stop + 1:after - 1]
        item = self.add(Item("fn", name, module, is_pub, head, body, owner, trait, is_test))
        item.has_self = bool(params) and any(t == "self" for _, t in params[0]) and bool(owner)
        item.count = len(params) - item.has_self
        return after

    def read_impl(self, tokens):
        """The trait's name, or None, and the type's name of the head of an `impl`."""
        i = 0
        if tokens and tokens[0][1] == "<":
            depth = 0
            while True:
                depth += (tokens[i][1] == "<") - (tokens[i][1] == ">")
                i += 1
                if depth == 0:
                    break
        parts, part, depth = [], [], 0
        for kind, token in tokens[i:]:
            depth += (token == "<") - (token == ">")
            if depth == 0 and token == "where":
                break
            if depth == 0 and token == "for":
                parts.append(part)
                part = []
            elif depth == 0 and kind == "name":
                part.append(token)
        parts.append(part)
        last = [p[-1] if p else "" for p in parts]
        return (last[0], last[1]) if len(last) == 2 else (None, last[0])

    def read_use(self, tokens, module, front, is_shown):
        path, i = list(front), 0
        while i < len(tokens):
            kind, token = tokens[i]
            if token == "{":
                end = group_end(tokens, i)
                for part in split_params(tokens[i + 1:end - 1]):
                    self.read_use(part, module, path, is_shown)
                return
            if token == "*":
                raise Unread("a use of '*'")
            if token == "as":
                self.put_use(module, tokens[i + 1][1], path, is_shown)
                return
            if kind == "name":
                path.append(token)
            i += 1
        if path and path[-1] == "self":
            path.pop()
        if path:
            self.put_use(module, path[-1], path, is_shown)

    def put_use(self, module, name, path, is_shown):
        module.uses.setdefault(name, []).append(path)
        if is_shown:
            self.shown.add((module.crate, name))

    def add(self, item):
        self.items.append(item)
        if not item.owner:
            item.module.put(item)
        return item

    def tie(self, item):
        """Gives a method its type and its trait."""
        if isinstance(item.owner, str):
            found = [it for it in self.look(item.module, [item.owner]) if isinstance(it, Item) and it.kind in ("type", "trait")]
            item.owner = found[0] if found else None
        if isinstance(item.trait, str):
            found = [it for it in self.look(item.module, [item.trait]) if isinstance(it, Item) and it.kind == "trait"]
            item.trait = found[0] if found else item.trait

    # ---- names

    def look(self, module, path, deep=0):
        """What a path names in a module: modules and items."""
        if deep > 12 or not path:
            return []
        first, rest = path[0], path[1:]
        if first == "crate":
            found = [self.roots[module.crate]] if module.crate in self.roots else [self.top_of(module)]
        elif first == "self":
            found = [module]
        elif first == "super":
            found = [module.parent] if module.parent else []
        else:
            found = list(module.items.get(first, []))
            if first in module.children:
                found.append(module.children[first])
            for one in module.uses.get(first, []):
                if one == [first] and first in self.roots:
                    found.append(self.roots[first])
                elif one[0] in self.roots and one[0] not in module.items and one[0] not in module.children:
                    found += self.look(self.roots[one[0]], one[1:], deep + 1) if one[1:] else [self.roots[one[0]]]
                elif one != [first]:
                    found += self.look(module, one, deep + 1)
            if not found and first in self.roots:
                found = [self.roots[first]]
        if not rest:
            return found
        result = []
        for one in found:
            if isinstance(one, Module):
                result += self.look(one, rest, deep + 1)
            elif isinstance(one, Item) and one.kind in ("type", "trait"):
                result += self.member(one, rest[0])
        return result

    def top_of(self, module):
        while module.parent:
            module = module.parent
        return module

    def member(self, owner, name):
        """The functions and constants of this name of a type, and the type itself."""
        found = [it for it in self.members.get(name, []) if it.owner is owner]
        if owner.kind == "type":
            aliased = [it for it in self.aliases(owner)]
            found += [it for it in self.members.get(name, []) if it.owner in aliased]
        return found + [owner]

    def aliases(self, owner):
        """The types that the words of an alias name."""
        if not owner.head or owner.head[0][1] != "=":
            return []
        return [it for kind, token in owner.head if kind == "name" for it in self.look(owner.module, [token])
                if isinstance(it, Item) and it.kind == "type" and it is not owner]

    @property
    def members(self):
        if not hasattr(self, "_members"):
            self._members = {}
            for item in self.items:
                if item.owner:
                    self._members.setdefault(item.name, []).append(item)
        return self._members

    # ---- uses

    def uses_of(self, item):
        """What an item names: items, and calls of methods as (name, count or None)."""
        found, calls = set(), set()
        tokens = item.head + [("mark", ";")] + (item.body or [])
        locals_, types = self.locals_of(item), Types(self, item, tokens)
        in_macro = any(tokens[i][0] == "name" and tokens[i + 1] == ("mark", "!") and any(
            isinstance(it, Item) and it.kind == "macro" for it in self.look(item.module, [tokens[i][1]])) for i in range(len(tokens) - 1))
        in_macro = in_macro or item.kind == "macro"
        i = 0
        while i < len(tokens):
            kind, token = tokens[i]
            before = tokens[i - 1][1] if i else ""
            if kind != "name" or (token in WORDS and token not in ("crate", "self", "super", "Self")):
                i += 1
                continue
            if before == "." and not (i > 1 and tokens[i - 2][1] in (".",)):
                place = self.behind_generics(tokens, i + 1)
                if place < len(tokens) and tokens[place][1] == "(":
                    end = group_end(tokens, place)
                    count, sure = params_of(tokens[place + 1:end - 1])
                    kind = types.at(i - 2)
                    calls.add((token, count if sure else None, kind and kind.what()))
                i += 1
                continue
            path, place = [token], i + 1
            while True:
                behind = self.behind_generics(tokens, place)
                if behind < len(tokens) and tokens[behind][1] == "::" and behind + 1 < len(tokens) and tokens[behind + 1][0] == "name":
                    path.append(tokens[behind + 1][1])
                    place = behind + 2
                else:
                    break
            following = tokens[place][1] if place < len(tokens) else ""
            is_called = following == "(" or (following == "::" and place + 1 < len(tokens) and tokens[place + 1][1] == "<")
            i = place
            if path == ["self"]:
                continue
            if path[0] == "Self":
                if item.owner is None or isinstance(item.owner, str):
                    continue
                if len(path) == 1:
                    found.add(item.owner)
                    continue
                if item.owner.kind == "trait":
                    calls.add((path[1], None, GENERIC))
                found.update(self.member(item.owner, path[1]))
                continue
            if len(path) == 1 and not is_called and following != "!" and (following == ":" or token in locals_):
                continue
            named = [it for it in self.look(item.module, path) if isinstance(it, Item)]
            if following == "!":
                named = [it for it in named if it.kind == "macro"]
            else:
                named = [it for it in named if it.kind != "macro"]
            found.update(named)
            if len(path) > 1:
                owner = [it for it in self.look(item.module, path[:-1]) if isinstance(it, Item)]
                found.update(it for it in owner if it.kind in ("type", "trait"))
                if any(it.kind == "trait" for it in owner) or not self.look(item.module, path[:1]):
                    calls.add((path[-1], None, GENERIC))
            elif is_called and not named and in_macro:
                calls.add((token, None, None))
        return found, calls

    def behind_generics(self, tokens, i):
        """The place after `::<..>`, if that is at i."""
        if i + 1 < len(tokens) and tokens[i][1] == "::" and tokens[i + 1][1] == "<":
            depth, i = 0, i + 1
            while i < len(tokens):
                depth += (tokens[i][1] == "<") - (tokens[i][1] == ">")
                i += 1
                if depth == 0:
                    break
        return i

    def locals_of(self, item):
        """The names of parameters, and of plain `let`s."""
        names, head, body = set(), item.head, item.body or []
        if item.kind == "fn":
            names |= {head[i][1] for i in range(len(head) - 1) if head[i][0] == "name" and head[i + 1] == ("mark", ":")}
        for i in range(len(body) - 1):
            if body[i] == ("name", "let"):
                place = i + 2 if body[i + 1] == ("name", "mut") else i + 1
                if place < len(body) and body[place][0] == "name" and (place + 1 >= len(body) or body[place + 1][1] in ("=", ":", ";")):
                    names.add(body[place][1])
        return names

    # ---- what is public

    def public(self):
        """The public calls."""
        calls, types = [], set()
        for crate, root in self.roots.items():
            todo = []
            for name, found in root.items.items():
                todo += [it for it in found if it.is_pub]
            for name in root.uses:
                if (crate, name) in self.shown:
                    todo += [it for it in self.look(root, [name]) if isinstance(it, Item) and it.is_pub and it.crate == crate]
            while todo:
                item = todo.pop()
                if item in types or item in calls:
                    continue
                if item.kind in ("fn", "const"):
                    calls.append(item)
                elif item.kind in ("type", "trait"):
                    types.add(item)
                    for it in self.items:
                        if it.owner is item and it.kind in ("fn", "const") and (it.is_pub or isinstance(it.trait, Item)):
                            todo.append(it)
                else:
                    continue
                words = [t for k, t in self.seen_of(item) if k == "name"]
                todo += [it for word in words for it in self.look(item.module, [word])
                         if isinstance(it, Item) and it.kind in ("type", "trait") and it.is_pub and it.crate == crate]
        return [it for it in calls if not it.is_test]

    def seen_of(self, item):
        """The tokens of a head that a crate above sees: of a struct the public fields alone."""
        if item.kind != "type" or not item.is_struct:
            return item.head
        start = next((i for i, (_, t) in enumerate(item.head) if t in ("{", "(")), None)
        if start is None:
            return []
        fields = split_params(item.head[start + 1:group_end(item.head, start) - 1])
        return [one for field in fields if field[0][1] == "pub" and field[1][1] != "(" for one in field]

    # ---- reach

    def reach(self):
        """Fills in, for each item, the crates from which a reached item uses it."""
        reached, todo = set(), [it for it in self.items if it.is_test or (it.name == "main" and not it.owner and it.module is self.roots[it.crate])]
        for item in todo:
            item.users.add("")
        calls = set()
        of_types = {}
        for item in self.items:
            if item.owner and isinstance(item.trait, str):
                of_types.setdefault(item.owner, []).append(item)
        while todo:
            while todo:
                item = todo.pop()
                if item in reached:
                    continue
                reached.add(item)
                by = self.user(item)
                found, made = self.uses_of(item)
                for one in found:
                    one.users.add(by)
                    todo.append(one)
                calls |= {(by, *one) for one in made}
                if item.kind == "type":
                    todo += of_types.get(item, [])
            for by, name, count, of in calls:
                crate = by.partition(" ")[0]
                for it in self.members.get(name, []):
                    if it.kind != "fn" or (count is not None and it.has_self and it.count != count):
                        continue
                    if of is FOREIGN or (of is GENERIC and not it.trait and it.owner.kind != "trait"):
                        continue
                    if isinstance(of, Item) and of.kind == "type" and it.owner is not of and it.owner.kind != "trait":
                        continue
                    from_crate = it.trait.crate if isinstance(it.trait, Item) else it.crate
                    if from_crate in self.below[crate] and (it.owner in reached or it.owner.kind == "trait"):
                        it.users.add(by)
                        if it not in reached:
                            todo.append(it)
        return reached

    def user(self, item):
        """The crate that an item is of, with a word more for its tests."""
        module, names = item.module, []
        while module.parent:
            names.append(module.name)
            module = module.parent
        return item.crate + (" tests" if item.is_test or names[-1:] == ["tests"] else "")


def listed():
    """The names that are to stay, with their lines' numbers."""
    names = {}
    if os.path.isfile(LISTED):
        with open(LISTED, encoding="utf-8") as file:
            for number, line in enumerate(file, 1):
                words = line.split("#")[0].split(None, 1)
                if words:
                    if len(words) < 2:
                        raise Unread(f"tools/unreached_calls.txt:{number}: a name without a reason")
                    names[words[0]] = number
    return names


def answer_of(item):
    """How far a public call is reached."""
    if not item.users:
        return "unreached"
    is_of_trait = item.owner and (item.owner.kind == "trait" or item.trait)
    return "own crate" if all(user == item.crate for user in item.users) and not is_of_trait else "reached"


def main():
    if sys.argv[1:] not in ([], ["--own"], ["--all"]):
        sys.exit(__doc__)
    try:
        sources, reasons = Sources(), listed()
        sources.reach()
        calls = sources.public()
    except (OSError, Unread) as fault:
        print(f"unreached_calls: {fault}", file=sys.stderr)
        return 2
    answers = {}
    for item in calls:
        if not item.is_law and not isinstance(item.trait, str):
            answers.setdefault(item.title(), set()).add(answer_of(item))
    answers = {name: next(it for it in ("unreached", "own crate", "reached") if it in found) for name, found in answers.items()}
    left = [name for name in sorted(answers) if answers[name] == "unreached" and name not in reasons]
    gone = [name for name in reasons if answers.get(name) != "unreached"]
    for name in left:
        print(f"unreached: {name}")
    for name in gone:
        print(f"tools/unreached_calls.txt:{reasons[name]}: {name} is {'reached' if name in answers else 'gone'}")
    for name, answer in sorted(answers.items()):
        if sys.argv[1:] == ["--all"] or (sys.argv[1:] == ["--own"] and answer == "own crate"):
            print(f"{answer}: {name}")
    print(f"{len(answers)} public calls: {len(left)} unreached, {len(reasons) - len(gone)} more with a reason")
    return 1 if left or gone else 0


if __name__ == "__main__":
    sys.exit(main())

#!/usr/bin/env python3
"""Brings the repository's own names in antt to today's spelling.

usage: respell.py [--check] [--pages] [--table FILE] [ROOT]     once, at the top of the repository, after the kit's port.py and before its changes are committed

First it lays back each `use` list that runs over lines with comments, as the commit HEAD has it: port.py joins such a list at commas, those of comments too, and loses its end (x86/specs/Forms).

Values (functions, lemmas, constructors, fields, local names) go in snake case, types, facts and modules in UpperCamel.
What is turned: crates/*/specs and crates/*/proofs (.antt), the clauses, `ghost use` lines and tactic attributes of crates/*/src (.rt), and crates/*/must-fail/*.edit.
What is not: names of std and of the other libraries, names that come from Rattle source, names that Rattle makes, quoted text, what a file in proofs/F/ declares.
FILE (respell.tsv unless it is given) has the table: old, new, kind, and the modules that declare the name. --check writes nothing but the table, to standard output.
--pages: code spans of README.md and docs/*.md that are one name of the table turn too; a name with two new spellings is shown and stays. (On a second run there is no table, so pages go with the first.)
A second run changes nothing.
"""

import collections
import os
import re
import subprocess
import sys

# ---- tables to be edited by hand

# (module or '*', old) -> new, where the rule would make two names one, or a wrong word
CHOSEN = {
    # a constructor or a field has the word
    ("*", "eitherWay"): "is_either_way",
    ("*", "allYes"): "are_all_yes",
    ("*", "inSize"): "is_in_size",
    ("*", "byOne"): "with_count_one",
    ("Rattle.encode_spec.proofs.ReadBack", "inOrder"): "string_of_parts",
    ("Rattle.encode_spec.proofs.Slots", "in-reg"): "at_reg",
    ("Rattle.encode_spec.proofs.Slots", "in-rm"): "at_rm",
    ("Rattle.sum_spec.proofs.Complete", "goesOn"): "can_go_on",
    ("Rattle.sum_spec.proofs.Tokens", "is_digit"): "is_a_digit",
    ("Rattle.encode_spec.proofs.Numbers", "fine"): "IsFine",
    # beside a field `dest` and a variable `cf`
    ("*", "DEST"): "destination_value",
    ("*", "CF"): "carry_flag",
    # beside the definitions `isRecord`, `isString`, `isRepeat` and `isShort` that they are about
    ("Rattle.fast_encoder.specs.Packing", "is-record"): "has_record_length",
    ("Rattle.x86.proofs.Repeats", "is-string"): "op_is_string",
    ("Rattle.x86.proofs.Repeats", "is-repeat"): "byte_is_repeat",
    ("Rattle.list_spec.proofs.Written", "is-short"): "is_short_displacement",
}
# spellings that stay as they are
STAY = set()
# words for the operators of a statement, as the libraries have them in names of lemmas
WORDS = {
    "le": "≤", "lt": "<", "ge": "≥", "gt": ">", "eq": "≡", "ne": "≢", "add": "+", "sub": "-", "mul": "*", "div": "/", "mod": "%",
    "append": "++", "cons": "∷", "nil": "[]", "mem": "∈", "zero": "0", "one": "1",
}

RESERVED = set("data record deriving module where use mod pub package open as unfoldable abbrev axiom unfold unfolding ruleset mutual infix infixl infixr elim let in do Type coe fcoe tcoe hcom com pattern".split())
PRELUDE = set("rw simp search grw cc omega grind hlevel assumption first_of cap V vin vproj in_s out_s IsProp IsSet absurd Dec yes no Discrete squash₁ Unit tt Id J Path refl Lem Ac ground".split())

TOKEN = re.compile(
    r'(?P<block>\{-.*?-\})|(?P<line>(?<![^\s(){}.;,@"«»])--[^\n]*)|(?P<text>"(?:[^"\\\n]|\\.)*")|(?P<escaped>«[^»\n]*»)|(?P<punct>[(){}.;,@])|(?P<space>\s+)|(?P<name>[^\s(){}.;,@"«»]+)',
    re.S,
)
NUMERAL = re.compile(r"0x[0-9a-fA-F_]+|0o[0-7_]+|0b[01_]+|[0-9][0-9_]*")
SYMBOLS = {"→", "×", "↦", "=", "|", ":", "[", "]", "λ", "∀", "_", "⊎", "↔", "∧", "∨"}
MARKS = {"pub", "abbrev", "unfoldable", "pattern", "axiom"}


class Tok:
    __slots__ = ("kind", "s", "at", "end")

    def __init__(self, kind, s, at):
        self.kind, self.s, self.at, self.end = kind, s, at, at + len(s)


def lex(text, start=0, end=None):
    end = len(text) if end is None else end
    out, at = [], start
    while at < end:
        m = TOKEN.match(text, at, end)
        if not m:
            out.append(Tok("other", text[at], at))
            at += 1
            continue
        k = m.lastgroup
        s = m.group()
        if k == "name" and (NUMERAL.fullmatch(s) or s in SYMBOLS or s.startswith("?")):
            k = "sign"
        out.append(Tok({"block": "comment", "line": "comment"}.get(k, k), s, at))
        at = m.end()
    return out


def code(tokens):
    return [t for t in tokens if t.kind not in ("space", "comment")]


# ---- spelling

PIECE = re.compile(r"[A-Z]+(?![a-z])|[A-Z][a-z]*|[^A-Z]+")
LETTER = re.compile(r"[A-Za-z]")
SINGLE = re.compile("[A-Z][₀-₉']*")  # one capital is a variable's name, and stays


def snake_word(w):
    """fooBar, fooAX, modZ -> foo_bar, foo_ax, mod_z; what has no capital stays."""
    pieces = []
    for part in w.split("_"):
        if part == "":
            pieces.append("")
            continue
        pieces += [p.lower() for p in PIECE.findall(part)] if re.search("[A-Z]", part) else [part]
    return "_".join(pieces)


def camel_word(w):
    """first-byte, first_byte, firstByte -> FirstByte"""
    parts = [p for p in re.split(r"[-_]", w) if p]
    return "".join(p[0].upper() + p[1:] for p in parts)


def is_word(name):
    return bool(LETTER.match(name)) and "◌" not in name


def has_hump(name):
    return bool(re.search(r"[A-Z]", name)) or "-" in name.strip("-")


# ---- the files


class File:
    def __init__(self, root, path):
        self.path = path
        self.rel = os.path.relpath(path, root)
        with open(path, encoding="utf-8") as f:
            self.text = f.read()
        parts = self.rel.split(os.sep)
        self.crate = parts[1]
        inner = parts[2:]
        inner[-1] = inner[-1].rsplit(".", 1)[0]
        if inner[-1] == "Lib":
            inner.pop()
        self.module = ".".join(["Rattle", self.crate] + inner)
        self.walk = parts[2] == "proofs" and len(parts) > 4  # proofs/F/..
        self.uses = []  # (module, name, alias, is_item)
        self.aliases = {}  # name here -> module
        self.items = {}  # name here -> (module, name)
        self.decls = {}  # name -> Decl
        self.public = set()
        self.fields = set()  # names of fields of its records, which a definition may share


class Decl:
    def __init__(self, name, kind, module, cited=(), marked=False):
        self.name, self.kind, self.module, self.cited, self.marked = name, kind, module, set(cited), marked  # marked: abbrev or unfoldable


def walk_files(root, sub, ending):
    for c in sorted(os.listdir(os.path.join(root, "crates"))):
        for folder, dirs, files in os.walk(os.path.join(root, "crates", c, sub)):
            dirs.sort()
            for f in sorted(files):
                if f.endswith(ending):
                    yield os.path.join(folder, f)


def read_uses(toks, text):
    """The use lines among code tokens: (path, items or None, alias, the index of the line's last token)."""
    out = []
    i = 0
    while i < len(toks):
        t = toks[i]
        if t.kind == "name" and t.s == "use" and not (i and toks[i - 1].s in (".", "{")):
            line = text[text.rfind("\n", 0, t.at) + 1 : t.at].split()
            if all(w in MARKS or w == "ghost" for w in line):
                j = i + 1
                path = []
                while j < len(toks) and toks[j].kind in ("name", "escaped", "sign"):
                    path.append(toks[j].s)
                    j += 1
                    if j + 1 < len(toks) and toks[j].s == "." and toks[j + 1].kind in ("name", "escaped", "sign"):
                        j += 1
                    else:
                        break
                if j + 1 < len(toks) and toks[j].s == "." and toks[j + 1].s == "{":
                    k = j + 2
                    items = []
                    item = []
                    while k < len(toks) and toks[k].s != "}":
                        if toks[k].s == ",":
                            items.append(item)
                            item = []
                        else:
                            item.append(toks[k])
                        k += 1
                    items.append(item)
                    out.append((path, [x for x in items if x], None, i, k, "pub" in line))
                    i = k
                else:
                    alias = None
                    if j + 1 < len(toks) and toks[j].s == "as":
                        alias = toks[j + 1].s
                        j += 2
                    out.append((path, None, alias, i, j - 1, "pub" in line))
                    i = j - 1
        i += 1
    return out


def split_item(item):
    """[a . b as c] -> (['a','b'], 'c' or None)"""
    names, alias = [], None
    for n, t in enumerate(item):
        if t.s == "as" and n + 1 < len(item):
            alias = item[n + 1].s
            break
        if t.s != ".":
            names.append(t.s)
    return names, alias


def take_uses(f, toks):
    for path, items, alias, _, _, pub in read_uses(toks, f.text):
        module = ".".join(path)
        if items is None:
            f.aliases[alias or path[-1]] = module
            continue
        for item in items:
            names, al = split_item(item)
            if not names:
                continue
            here = al or names[-1]
            f.items[here] = (".".join([module] + names[:-1]), names[-1], al is not None)
            if pub:
                f.public.add(here)


SIGNATURE = re.compile(r"^( *)((?:(?:pub|abbrev|unfoldable|pattern|axiom|data|record) )*)([^\s(){}.;,@\"«»]+(?: [^\s(){}.;,@\"«»]+)*?)(?: \{[^}\n]*\})?((?: [({][^\n]*)?) :(?=\s|$)")
HEADER = re.compile(r"^( *)((?:pub |unfoldable )*)(data|record|module|mutual|where)\b")


def blank_comments(text):
    out = []
    for t in lex(text):
        out.append(re.sub(r"[^\n]", " ", t.s) if t.kind in ("comment", "text") else t.s)
    return "".join(out)


def take_decls(f):
    text = blank_comments(f.text)
    lines = text.split("\n")
    stack = []  # (indent, what, name)
    i = 0
    while i < len(lines):
        line = lines[i]
        if not line.strip():
            i += 1
            continue
        indent = len(line) - len(line.lstrip(" "))
        while stack and stack[-1][0] >= indent and not (stack[-1][1] == "where" and stack[-1][0] == indent and line.lstrip().startswith("where")):
            stack.pop()
        h = HEADER.match(line)
        m = SIGNATURE.match(line)
        if h and h.group(3) in ("module", "mutual", "where"):
            stack.append((indent, h.group(3), None))
            i += 1
            continue
        if m and not (set(m.group(3).split()) & (RESERVED | SYMBOLS | {"let", "in"})) and not any(NUMERAL.fullmatch(w) for w in m.group(3).split()):
            marks = m.group(2).split()
            names = m.group(3).split()
            if m.group(4) and not ({"data", "record"} & set(marks)):
                # a clause such as  f (x : A)  is no signature
                i += 1
                continue
            typ = [line[m.end() :]]
            j = i + 1
            while j < len(lines) and (not lines[j].strip() or len(lines[j]) - len(lines[j].lstrip(" ")) > indent):
                if {"data", "record"} & set(marks):
                    break
                if lines[j].lstrip().startswith("where"):
                    break
                typ.append(lines[j])
                j += 1
            ttext = " ".join(typ)
            marked = bool({"abbrev", "unfoldable"} & set(marks))
            inside = stack[-1][1] if stack else None
            if "data" in marks or "record" in marks:
                kind = "type"
                stack.append((indent, "data" if "data" in marks else "record", names[0]))
            elif inside == "record":
                kind = "field"
            elif inside == "data":
                kind = "constructor"
            else:
                kind = "fact" if result_is_type(ttext) else "value"
                if inside == "where" or any(s[1] == "where" for s in stack):
                    kind = "local type" if kind == "fact" else "local"
            cited = {t.s for t in lex(m.group(4) + " " + ttext) if t.kind in ("name", "sign")}
            if kind == "field":
                f.fields.update(names)
            for n in names:
                if kind in ("local",):
                    f.decls.setdefault(n, Decl(n, kind, f.module, cited, marked))
                else:
                    f.decls[n] = Decl(n, kind, f.module, cited, marked)
        elif h and h.group(3) in ("data", "record"):
            stack.append((indent, h.group(3), None))
        i += 1
    for m in re.finditer(r"(?m)^(?:pub )?ruleset ([^\s(){}.;,]+)", text):
        f.decls[m.group(1)] = Decl(m.group(1), "value", f.module)


def result_is_type(t):
    depth, last = 0, 0
    toks = [x for x in lex(t) if x.kind not in ("space", "comment")]
    for n, x in enumerate(toks):
        if x.s in "({":
            depth += 1
        elif x.s in ")}":
            depth -= 1
        elif x.s == "→" and depth == 0:
            last = n + 1
    rest = [x.s for x in toks[last:]]
    return bool(rest) and rest[0] in ("Type", "SProp") and len(rest) <= 4


# ---- the table


class Table:
    def __init__(self, files):
        self.files = files
        self.modules = {f.module: f for f in files}
        self.own = {}  # (module, name) -> new
        self.spell = {}  # old -> new, for names that show it by a hump or a dash
        self.kind = collections.defaultdict(set)
        self.where = collections.defaultdict(list)
        self.fields = {}  # old -> new, of the fields of all our records
        self.make()

    def origin(self, module, name, seen=()):
        """Where an own name is declared: (module, name), or None where it is not ours."""
        f = self.modules.get(module)
        if f is None or (module, name) in seen:
            return None
        if name in f.decls and not f.decls[name].kind.startswith("local"):
            return module, name
        if name in f.items:
            m, n, renamed = f.items[name]
            if renamed:
                return module, name
            return self.origin(m, n, seen + ((module, name),))
        return None

    def alias_kind(self, f, name):
        m, n, _ = f.items[name]
        o = self.origin(m, n)
        if o and o[1] in self.modules[o[0]].decls:
            return self.modules[o[0]].decls[o[1]].kind
        return None

    def make(self):
        entries = []
        for f in self.files:
            if f.walk:
                continue
            for d in f.decls.values():
                entries.append((f, d.name, d.kind, d.cited))
            for here, (m, n, renamed) in f.items.items():
                if renamed:
                    kind = self.alias_kind(f, here)
                    if kind is None:
                        # an alias of a name that is not ours: a constructor or a value, unless both are capital words with lower letters
                        kind = "type" if re.fullmatch(r"[A-Z][A-Za-z]*[a-z][A-Za-z0-9]*", here) or re.fullmatch("[A-Z]", here) else "alias"
                    entries.append((f, here, kind, ()))
        # facts and types first, since a lemma's name may cite them
        for f, name, kind, cited in entries:
            if kind in ("type", "fact", "local type"):
                self.put(f, name, kind, self.new_type(name))
        for f, name, kind, cited in entries:
            if kind in ("field", "constructor", "alias"):
                self.put(f, name, kind, self.new_plain(name))
        for f in self.files:
            for n in () if f.walk else f.fields:
                new = "" if n in STAY else CHOSEN.get((f.module, n), CHOSEN.get(("*", n), self.new_plain(n)))
                if new and new != n:
                    self.fields[n] = new
        plain = [(f, n, k, c) for f, n, k, c in entries if k in ("value", "local") and "-" not in n.strip("-")]
        dashed = [(f, n, k, c) for f, n, k, c in entries if k in ("value", "local") and "-" in n.strip("-")]
        for f, name, kind, cited in plain:
            self.put(f, name, kind, self.new_plain(name))
        votes = collections.defaultdict(list)
        for f, name, kind, cited in sorted(dashed, key=lambda e: e[1].count("-")):
            votes[name].append((f, kind, self.new_lemma(f, name, cited)))
        for name, vs in votes.items():
            # one spelling for a name that several modules declare: the one with the fewest dashes
            new = min((v[2] for v in vs), key=lambda s: (s.count("-"), s))
            for f, kind, _ in vs:
                self.put(f, name, kind, new)

    def part(self, clash):
        """CONTRACT_STYLE: a lemma that would have its function's name gets `_lem`. Says how many it gave."""
        n = 0
        for f, new, olds in clash:
            found = [(o, self.resolve(f, o)) for o in olds]
            found = [(o, r, self.modules[r[0]].decls.get(r[1])) for o, r in found if r]
            found = [x for x in found if x[2] is not None]
            lemmas = [x for x in found if x[2].kind in ("value", "field", "local") and not x[2].marked and any(y[0] != x[0] for y in found)]
            others = [x for x in found if x not in lemmas]
            for o, r, d in lemmas:
                if len(others) + len(lemmas) < 2 or not (others or d.name not in [y[0] for y in lemmas[:1]]):
                    continue
                if d.kind == "field" and not has_hump(o):
                    continue
                if self.own[r] == new:
                    self.rename(r, d.kind, new + "_lem")
                    n += 1
        return n

    def settle(self):
        """A field has one spelling in all records that have it, and a definition of a module that has such a field follows it."""
        for f in self.files:
            if f.walk:
                continue
            for n in f.fields:
                new = self.fields.get(n, n)
                if self.own.get((f.module, n), n) != new:
                    self.rename((f.module, n), "field", new)

    def rename(self, r, kind, new):
        old = self.own[r]
        name = r[1]
        self.own[r] = new
        f = self.modules[r[0]]
        if old == new:
            return
        if (name, old) in self.where:
            self.where[(name, old)] = [x for x in self.where[(name, old)] if x[0] != r[0]]
            if not self.where[(name, old)]:
                del self.where[(name, old)]
        self.where[(name, new)].append((r[0], kind))
        if kind == "field":
            self.fields[name] = new
        if self.spell.get(name) == old and has_hump(name):
            self.spell[name] = new

    def put(self, f, name, kind, new):
        new = CHOSEN.get((f.module, name), CHOSEN.get(("*", name), new))
        if name in STAY:
            new = name
        self.own[(f.module, name)] = new
        self.kind[name].add(kind)
        if new != name:
            self.where[(name, new)].append((f.module, kind))
            if kind == "field":
                self.fields[name] = new
            if has_hump(name):
                self.spell.setdefault(name, new)

    def new_type(self, name):
        if not is_word(name):
            return name
        if name[0].isupper() and "-" not in name and "_" not in name:
            return name
        return camel_word(name)

    def new_plain(self, name):
        if not is_word(name) or SINGLE.fullmatch(name):
            return name.replace("′", "'")
        return "_".join(snake_word(p) if LETTER.match(p) else p.lower() for p in name.replace("′", "'").split("-"))

    def cites(self, f, segment, cited):
        """The new spelling of a part of a dashed name that the signature has as a name, or None."""
        bare = segment.rstrip("'")
        tail = segment[len(bare) :]
        if bare in cited:
            o = self.resolve(f, bare)
            if o is None and bare not in f.items and bare not in f.decls:
                return None  # a variable
            new = self.own.get(o, bare) if o else bare
            return new + tail
        w = WORDS.get(bare)
        if w and (w in cited or any(w in c for c in cited if "◌" in c)):
            return segment
        return None

    def resolve(self, f, name):
        if name in f.decls and (f.module, name) in self.own:
            return f.module, name
        if name in f.items:
            m, n, renamed = f.items[name]
            if renamed:
                return f.module, name
            return self.origin(m, n)
        return None

    def new_lemma(self, f, name, cited):
        if not is_word(name):
            return name.replace("′", "'")
        parts = [p for p in name.replace("′", "'").split("-")]
        new = []
        for p in parts:
            c = self.cites(f, p, cited)
            new.append((c if c is not None else snake_word(p) if LETTER.match(p) else p.lower(), c is not None))
        out = new[0][0]
        for (a, an), (b, bn) in zip(new, new[1:]):
            out += ("-" if an and bn else "_") + b
        return out

    def local(self, name):
        """A local name's spelling: it has a lower letter first, and a hump or a dash."""
        if not is_word(name) or not name[0].islower() or not has_hump(name):
            return name
        return self.new_plain(name)


# ---- turning a file


MADE = re.compile(r"ensures|requires|result|args|ranges|before|given|invariant|now|old|new|true|false|[0-9]+|(?:if|match|loop|arm|while|for)[0-9-].*|shared-.*")


class Turn:
    """The names of one file: bare(name), path(names) and field(name) give the new spelling."""

    def __init__(self, table, f, clause=False):
        self.t, self.f, self.clause = table, f, clause

    def bare(self, name):
        f, t = self.f, self.t
        if name in f.decls:
            if f.walk:
                return name
            return t.own.get((f.module, name), name)
        if name in f.items:
            o = t.resolve(f, name)
            return t.own.get(o, name) if o else name
        if name in f.aliases or name in RESERVED or name in PRELUDE or name in STAY:
            return name
        if f.walk or self.clause:
            return name
        return t.local(name)

    def binder(self, name):
        """The name in `{name = ..}` of a call: the lemma's binder."""
        if name in self.f.items:
            return name
        return self.t.local(name)

    def field(self, name):
        return self.t.fields.get(name, name)

    def in_module(self, module, name):
        o = self.t.origin(module, name)
        return self.t.own.get(o, name) if o else name

    def chain(self, names):
        """A dotted path, from its head."""
        f, t = self.f, self.t
        head = names[0]
        module = None
        if head in f.aliases and len(names) > 1:
            module, i = f.aliases[head], 1
        elif head == "Rattle":
            module, i = "Rattle", 1
        elif head in ("mathlib", "native", "lib", "Prim", "package", "std", "base", "prog", "types", "denote", "mir", "borrow", "seplogic", "contract", "sound") and len(names) > 1 and head not in f.decls and head not in f.items:
            return names
        if module is None:
            out = [self.bare(head)]
            foreign = head in f.items and t.resolve(f, head) is None
            o = t.resolve(f, head)
            # in proofs/F/ the parts up to such a word are names that Rattle makes, as `c.before.is-repeat.ensures`
            made = max([0] + [i for i, n in enumerate(names) if MADE.fullmatch(n)]) if f.walk else 0
            for i, n in enumerate(names[1:], 1):
                if foreign or i <= made:
                    out.append(n)
                elif o and head[0].isupper() and (o[0], n) in t.own:
                    out.append(t.own[(o[0], n)])  # a constructor behind its type
                else:
                    out.append(self.field(n))
            return out
        out = list(names[:i])
        known = False
        while i < len(names):
            n = names[i]
            nxt = module + "." + n
            if nxt in t.modules or any(m.startswith(nxt + ".") for m in t.modules):
                out.append(n)
                module = nxt
                i += 1
                continue
            if module in t.modules and not known:
                known = t.origin(module, n) is not None
                out.append(self.in_module(module, n))
            elif known:
                out.append(self.field(n))
            else:
                out.append(n)
            i += 1
        return out


COMMENT_WORD = re.compile(r"[A-Za-z][A-Za-z0-9_'′₀-₉-]*")


def turn_comment(turn, s, log):
    def one(m):
        w = m.group()
        tail = ""
        while w and w[-1] in "-'":
            tail = w[-1] + tail
            w = w[:-1]
        spans = s[: m.start()].count("`") % 2 == 1
        new = None
        f, t = turn.f, turn.t
        if w in f.decls or w in f.items:
            new = turn.bare(w)
        elif w in t.spell and not any(k == "local" for k in t.kind[w]):
            new = t.spell[w]
        if new is None or new == w:
            return m.group()
        if not spans and (re.fullmatch("[A-Z]+", w) or not has_hump(w)):
            return m.group()  # a word of prose: an acronym, or a plain word
        if not spans and not re.search("[A-Z]", w[1:]) and not (w in f.decls or w in f.items):
            # in prose a word with dashes is English where the file does not know the name
            log.append((turn.f.rel, w, new, s.strip()))
            return m.group()
        return new + tail

    return COMMENT_WORD.sub(one, s)


def edits_of(turn, text, start=0, end=None, log=None):
    """The replacements (at, end, new) of names in text[start:end]."""
    toks = lex(text, start, end)
    out = []
    for t in toks:
        if t.kind == "comment":
            new = turn_comment(turn, t.s, log if log is not None else [])
            if new != t.s:
                out.append((t.at, t.end, new))
    cs = code(toks)
    spans = []
    for path, items, alias, i, j, _ in read_uses(cs, text):
        spans.append((i, j))
        module = ".".join(path)
        for item in items or []:
            names, al = split_item(item)
            toks_of = [t for t in item if t.s not in (".", "as")]
            m = module
            for n, tk in zip(names, toks_of):
                new = turn.in_module(m, n) if not (m + "." + n) in turn.t.modules else n
                if new != n:
                    out.append((tk.at, tk.end, new))
                m += "." + n
            if al:
                new = turn.bare(al)
                last = toks_of[len(names) - 1]
                newlast = turn.in_module(".".join([module] + names[:-1]), names[-1])
                at = toks_of[len(names)]
                if new == newlast:
                    # `a as a` is written `a`
                    out = [e for e in out if e[0] != last.at]
                    out.append((last.at, at.end, new))
                elif new != al:
                    out.append((at.at, at.end, new))
    skip = set()
    for i, j in spans:
        skip.update(range(i, j + 1))
    n = 0
    while n < len(cs):
        t = cs[n]
        if n in skip or t.kind != "name":
            n += 1
            continue
        prev = cs[n - 1] if n else None
        if prev is not None and prev.s == "." and prev.end == t.at and n >= 2 and cs[n - 2].end == prev.at and (n - 1) not in skip:
            # a field of a term in parentheses, or what a chain left
            new = turn.field(t.s)
            if new != t.s:
                out.append((t.at, t.end, new))
            n += 1
            continue
        group = [t]
        while n + 2 < len(cs) and cs[n + 1].s == "." and cs[n + 1].at == cs[n].end and cs[n + 2].at == cs[n + 1].end and cs[n + 2].kind in ("name", "sign", "escaped"):
            group.append(cs[n + 2])
            n += 2
        n += 1
        nxt = cs[n] if n < len(cs) else None
        if len(group) == 1 and nxt is not None and nxt.s == "=" and prev is not None and prev.s in ("{", ";", ","):
            back = n - 2
            new = None
            if prev.s == "{" and not (back > 0 and is_record(cs, back)):
                new = turn.binder(t.s)
            elif in_record(cs, n - 2):
                new = turn.field(t.s)
            else:
                new = turn.bare(t.s)
            if new != t.s:
                out.append((t.at, t.end, new))
            continue
        new = turn.chain([g.s for g in group]) if len(group) > 1 else [turn.bare(t.s)]
        for g, s in zip(group, new):
            if s != g.s:
                out.append((g.at, g.end, s))
    return sorted(out)


def is_record(cs, brace):
    """Is the `{` at index brace that of a record literal: `record {` or `record r {` or `record (..) {`?"""
    k = brace - 1
    if k >= 0 and cs[k].s == "record":
        return True
    if k >= 0 and cs[k].s == ")":
        depth = 0
        while k >= 0:
            depth += cs[k].s == ")"
            depth -= cs[k].s == "("
            if depth == 0:
                break
            k -= 1
        return k >= 1 and cs[k - 1].s == "record"
    while k >= 1 and (cs[k].kind in ("name", "sign") and cs[k - 1].s == "."):
        k -= 2
    return k >= 1 and cs[k].kind == "name" and cs[k - 1].s == "record"


def in_record(cs, k):
    depth = 0
    while k >= 0:
        if cs[k].s in (")", "}"):
            depth += 1
        elif cs[k].s in ("(", "{"):
            if depth == 0:
                return cs[k].s == "{" and is_record(cs, k)
            depth -= 1
        k -= 1
    return False


def apply(text, edits):
    out, at = [], 0
    for a, b, new in edits:
        if a < at:
            continue
        out.append(text[at:a])
        out.append(new)
        at = b
    out.append(text[at:])
    return "".join(out)


# ---- Rattle source

RUST = re.compile(r"""//[^\n]*|/\*.*?\*/|[bc]?r(#*)".*?"\1|[bc]?"(?:\\.|[^"\\])*"|b?'(?:\\u\{[0-9a-fA-F_]+\}|\\x..|\\.|[^'\\\n])'|'?\w+|\s+|.""", re.S)


def clause_spans(text):
    """(start, end, kind) of what is antt in a .rt file: 'use' with its semicolon, 'clause' and 'tactic' without their brackets; and comments."""
    toks = [(m.group(), m.start(), m.end()) for m in RUST.finditer(text)]
    sig = [t for t in toks if not t[0].isspace() and not t[0].startswith(("//", "/*"))]
    spans = [(a, b, "comment") for s, a, b in toks if s.startswith(("//", "/*"))]
    i = 0
    while i < len(sig):
        s, a, b = sig[i]
        if s == "ghost" and i + 1 < len(sig) and sig[i + 1][0] == "use":
            j = text.index(";", b)
            spans.append((a, j + 1, "use"))
            while i < len(sig) and sig[i][1] <= j:
                i += 1
            continue
        if s in ("requires", "ensures", "invariant", "decreases", "also_owns", "also_shares") or s == "ghost":
            j = i + 1
            while j < len(sig) and j < i + 6 and sig[j][0] not in ("{", ";", "(", ")", "}"):
                j += 1
            if j < len(sig) and sig[j][0] == "{":
                depth, k = 0, j
                while k < len(sig):
                    depth += sig[k][0] == "{"
                    depth -= sig[k][0] == "}"
                    if depth == 0:
                        break
                    k += 1
                spans.append((sig[j][2], sig[k][1], "clause"))
                i = k + 1
                continue
        if s == "tactic" and i and sig[i - 1][0] == "[":
            j = i + 1
            depth = 0
            while j < len(sig):
                depth += sig[j][0] == "("
                depth -= sig[j][0] == ")"
                if depth == 0:
                    break
                j += 1
            spans.append((sig[i + 1][1], sig[j][2], "tactic"))
            i = j
        i += 1
    return sorted(spans)


class Source:
    """A .rt file seen as a File with imports only."""

    def __init__(self, root, path):
        self.path = path
        self.rel = os.path.relpath(path, root)
        with open(path, encoding="utf-8") as f:
            self.text = f.read()
        self.crate = self.rel.split(os.sep)[1]
        self.module = "src of " + self.crate
        self.walk = False
        self.aliases, self.items, self.decls, self.public = {}, {}, {}, set()
        self.spans = clause_spans(self.text)
        for a, b, k in self.spans:
            if k == "use":
                take_uses(self, code(lex(self.text, a, b)))


def source_edits(table, src, log):
    turn = Turn(table, src, clause=True)
    out = []
    for a, b, k in src.spans:
        if k == "comment":
            new = turn_comment(turn, src.text[a:b], log)
            if new != src.text[a:b]:
                out.append((a, b, new))
        else:
            out += edits_of(turn, src.text, a, b, log)
    return sorted(out)


# ---- must-fail edits


def turn_edit(text, more, news, turns, report, name):
    """more: a list that gets the names turned that no table has; news: path in the crate -> text afterwards; turns: path -> (edits, turn, file)"""
    out, target = [], None
    inside = False
    for line in text.split("\n"):
        m = re.match(r"(file|old|new): ?(.*)$", line)
        if not m:
            out.append(line)
            continue
        if m.group(1) == "file":
            target = m.group(2).strip()
            out.append(line)
            continue
        body = m.group(2)
        if target not in turns:
            out.append(line)
            continue
        edits, turn, f = turns[target]
        antt = target.endswith(".antt")
        if m.group(1) == "old":
            at = f.text.find(body) if body else -1
            inside = antt
            if at >= 0 and f.text.count(body) == 1:
                if not antt:
                    inside = any(a <= at < b and k != "comment" for a, b, k in f.spans)
                part = [(a - at, b - at, s) for a, b, s in edits if at <= a and b <= at + len(body)]
                out.append(m.group(1) + ": " + apply(body, part))
                continue
            report.append(f"{name}: the old text is not there once (it was not before either): {body[:90]}")
        inside_now = antt or inside or bool(re.search(r"\b(requires|ensures)\b", body))
        if inside_now:
            after = {t.s for t in lex(news[target]) if t.kind == "name"}
            es = edits_of(turn, body)
            done = {a for a, _, _ in es}
            for t in lex(body):
                if t.kind == "name" and t.at not in done and has_hump(t.s) and is_word(t.s) and t.s not in after:
                    for s in (turn.t.spell.get(t.s), turn.t.new_plain(t.s)):
                        if s and s in after:
                            es.append((t.at, t.end, s))
                            more.append((t.s, s, name))
                            break
            more += [(body[a:b], s, name) for a, b, s in es]
            body = apply(body, sorted(es))
        out.append(m.group(1) + ": " + body)
    return "\n".join(out)


# ---- pages


def turn_pages(root, table, writes, report):
    """Code spans of the pages that are one name: how many turn."""
    news = collections.defaultdict(set)
    for (old, new), ms in table.where.items():
        if any(k not in ("local", "local name", "in an edit alone") for _, k in ms) and has_hump(old) and len(old) > 2:
            news[old].add(new)
    paths = [os.path.join(root, "README.md")]
    folder = os.path.join(root, "docs")
    if os.path.isdir(folder):
        paths += [os.path.join(folder, f) for f in sorted(os.listdir(folder)) if f.endswith(".md")]
    n = 0
    for p in paths:
        if not os.path.exists(p):
            continue
        with open(p, encoding="utf-8") as g:
            text = g.read()

        def one(m):
            nonlocal n
            to = news.get(m.group(1), ())
            if len(to) > 1:
                report.append(f"{os.path.relpath(p, root)}: `{m.group(1)}` is now {' or '.join(sorted(to))}, and stays")
            if len(to) != 1:
                return m.group()
            n += 1
            return "`" + next(iter(to)) + "`"

        new = re.sub(r"`([^`\s]+)`", one, text)
        if new != text:
            writes[p] = new
    return n


# ---- lists with comments

LIST = re.compile(r"^(?:pub )?use (\S+)\.\{\n(?:  [^\n]*\n)*?[^\n]*--[^\n]*\n(?:  [^\n]*\n)*\}", re.M)


def lay_back_lists(root):
    """Each `use` list over several lines with comments, below its path of today, as HEAD has it. Says the files that changed."""
    done = []
    for sub in ("specs", "proofs"):
        for path in walk_files(root, sub, ".antt"):
            rel = os.path.relpath(path, root)
            shown = subprocess.run(["git", "show", f"HEAD:{rel}"], cwd=root, capture_output=True, text=True)
            if shown.returncode or not LIST.search(shown.stdout):
                continue
            with open(path, encoding="utf-8") as f:
                text = f.read()
            before = text
            for m in LIST.finditer(shown.stdout):
                tail = re.sub(r"[^a-z0-9]", "", "".join(re.split(r"[.·]", m[1])[-2:]).lower())
                for n in re.finditer(r"^((?:pub )?use (\S+)\.\{)(?!\n)[^\n]*--", text, re.M):
                    if re.sub(r"[^a-z0-9]", "", "".join(n[2].split(".")[-2:]).lower()) == tail:
                        end = re.compile(r"[^\n]*\}[ \t]*$", re.M).search(text, n.end())
                        text = text[: n.start()] + n[1] + "\n" + m[0].split("{\n", 1)[1] + text[end.end() :]
                        break
            if text != before:
                with open(path, "w", encoding="utf-8") as f:
                    f.write(text)
                done.append(rel)
    return done


# ---- what falls together


def collisions(table, files):
    """Two spellings of one file that become one, a name that becomes a reserved word, and a new name of a module that it had already."""
    found = []
    for f in files:
        turn = Turn(table, f)
        became = collections.defaultdict(set)
        toks = code(lex(f.text))
        bare, n = set(), 0
        for n, t in enumerate(toks):
            if t.kind == "name" and not (n and toks[n - 1].s == "." and toks[n - 1].end == t.at and not (n >= 2 and toks[n - 2].s == "{")):
                bare.add(t.s)
        bare |= set(f.items) | set(f.decls)
        for s in bare:
            became[turn.bare(s)].add(s)
        for new, olds in became.items():
            if len(olds) > 1:
                how = {o: (f.decls[o].kind if o in f.decls else "imported" if o in f.items else "local") for o in olds}
                found.append((f.rel, new, how))
            if (new in RESERVED or new in PRELUDE) and olds != {new}:
                found.append((f.rel, new, {o: "reserved" for o in olds}))
    return found


def rust_collisions(table, sources):
    found = []
    for src in sources:
        turn = Turn(table, src, clause=True)
        words = set()
        at = 0
        for a, b, k in src.spans + [(len(src.text), len(src.text), "end")]:
            words |= set(re.findall(r"\b([a-z_][a-z0-9_]*)\s*:(?!:)", src.text[at:a])) | set(re.findall(r"\blet (?:mut )?([a-z_]\w*)", src.text[at:a]))
            at = b
        for here in src.items:
            new = turn.bare(here)
            if new != here and new in words:
                found.append((src.rel, new, {here: "imported, beside a parameter, field or local of that name"}))
            if new != here and new in src.items:
                found.append((src.rel, new, {here: "imported", new: "imported"}))
    return found


def main(argv):
    check, pages = "--check" in argv, "--pages" in argv
    argv = [a for a in argv if a not in ("--check", "--pages")]
    tsv = "respell.tsv"
    if "--table" in argv:
        i = argv.index("--table")
        tsv = argv[i + 1]
        del argv[i : i + 2]
    if any(a.startswith("-") for a in argv) or len(argv) > 1:
        print(__doc__)
        return 2
    root = argv[0] if argv else "."
    if not os.path.isdir(os.path.join(root, "crates")):
        print("respell: run it at the top of a repository that has crates/", file=sys.stderr)
        return 2
    if not check:
        for rel in lay_back_lists(root):
            print(f"list laid back: {rel}")
    files = [File(root, p) for sub in ("specs", "proofs") for p in walk_files(root, sub, ".antt")]
    for f in files:
        take_uses(f, code(lex(f.text)))
        take_decls(f)
    table = Table(files)
    sources = [Source(root, p) for p in walk_files(root, "src", ".rt")]
    known = {f.rel: f for f in files}
    while table.part([(known[rel], new, how) for rel, new, how in collisions(table, files)]):
        table.settle()
    table.settle()

    log, report, more, count = [], [], [], collections.Counter()
    by_path = {}
    for f in files:
        turn = Turn(table, f)
        by_path[f.rel] = (edits_of(turn, f.text, log=log), turn, f)
    for s in sources:
        by_path[s.rel] = (source_edits(table, s, log), Turn(table, s, clause=True), s)
    clash = collisions(table, files) + rust_collisions(table, sources)
    after = {rel: apply(f.text, e) for rel, (e, _, f) in by_path.items()}
    writes = {}
    for rel, (e, _, f) in by_path.items():
        if after[rel] != f.text:
            writes[os.path.join(root, rel)] = after[rel]
            count[rel.rsplit(".", 1)[1]] += 1
            count["names"] += len(e)
    for p in walk_files(root, "must-fail", ".edit"):
        rel = os.path.relpath(p, root)
        top = os.path.join("crates", rel.split(os.sep)[1])
        here = {os.path.relpath(r, top): v for r, v in by_path.items() if r.startswith(top + os.sep)}
        news = {k: after[os.path.join(top, k)] for k in here}
        with open(p, encoding="utf-8") as g:
            text = g.read()
        new = turn_edit(text, more, news, here, report, rel)
        if new != text:
            writes[p] = new
            count["edit"] += 1

    for rel, (e, _, f) in by_path.items():
        for a, b, new in e:
            old = f.text[a:b]
            if (old, new) not in table.where and not re.search(r"\s", old):
                table.where[(old, new)].append((getattr(f, "module", rel), "local name"))
    for old, new, rel in more:
        if (old, new) not in table.where:
            table.where[(old, new)].append((rel, "in an edit alone"))
    if pages:
        count["pages"] = turn_pages(root, table, writes, report)
    rows = sorted(table.where)
    lines = ["old\tnew\tkind\tmodules\n"]
    for old, new in rows:
        ms = table.where[(old, new)]
        kinds = ", ".join(sorted({k for _, k in ms}))
        mods = sorted({m for m, _ in ms})
        lines.append(f"{old}\t{new}\t{kinds}\t{', '.join(mods[:6])}{' ..' if len(mods) > 6 else ''}\n")
    if check:
        sys.stdout.writelines(lines)
    else:
        if rows:
            with open(tsv, "w", encoding="utf-8") as g:
                g.writelines(lines)
        for p, s in writes.items():
            with open(p, "w", encoding="utf-8") as g:
                g.write(s)
    say = sys.stderr if check else sys.stdout
    for rel, new, how in clash:
        print(f"collision: {rel}: {new} <- " + "; ".join(f"{o} ({k})" for o, k in sorted(how.items())), file=say)
    for r in report:
        print("edit: " + r, file=say)
    for rel, w, new, s in log:
        print(f"prose: {rel}: {w} ({new}) stays in: {s[:120]}", file=say)
    print(f"respell: {len(rows)} names; {count['names']} places in {count['antt']} .antt and {count['rt']} .rt files, {count['edit']} edits, {count['pages']} in pages; {len(clash)} collisions", file=say)
    return 1 if clash else 0


if __name__ == "__main__":
    raise SystemExit(main(sys.argv[1:]))

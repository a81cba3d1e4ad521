#!/usr/bin/env python3
"""Prints the headline, the contract of the top call and every definition on which they stand: the page docs/THEOREM.md.

    python3 tools/theorem.py                prints the page
    python3 tools/theorem.py --write        writes it to docs/THEOREM.md
    python3 tools/theorem.py --check        ends with 1 where docs/THEOREM.md has another text, or the self-test fails
    python3 tools/theorem.py --bare         lists the printed definitions that have no comment of their own
    python3 tools/theorem.py --self-test    reads a small tree of files made for it

It begins with the contracts of the calls in CHAPTERS, and follows each name that a clause or a printed definition uses.

- A name of antt is one of the same file, or comes from a `use` line (`ghost use` in a .rt file). There the path
  Rattle.CRATE.specs.FILE is crates/CRATE/specs/FILE.antt or, where there is no such file, what a `pub use` line of
  specs/Lib.antt passes on, and Rattle.CRATE.specs.declared.MODULE.TYPE is the type in crates/CRATE/src/MODULE.rt, which
  is printed with its `impl Model`. An operator is known by the parts of its name between the `◌`.
- A type, trait or constant in Rust text is one of the same file, comes from a `use` line, which says from which crate
  (there it is the one item of that name), or is one of Rust's prelude.
- A path into std, or into a library that crates.txt names but has no line of, is the toolchain's. Its names are listed
  at the end of the page, and not followed.
- What stands behind a dot is not looked up. A name that leads nowhere must be bound in the text itself, as a parameter,
  a field or by `λ`, `let` or `(x : T)`; else the run ends with 2 and tells the file and the name. A bound name that leads
  somewhere too is followed: the page may have a definition too many, and never one too few.
"""
import argparse
import functools
import re
import sys
import tempfile
import textwrap
from collections import namedtuple
from pathlib import Path

ROOT = Path(__file__).resolve().parent.parent
PAGE = ROOT / "docs" / "THEOREM.md"

TOLD = """The clauses on bytes are written in three words of the toolchain. Of a device that doesn't tell its bytes (`None`) they
say nothing:

```
-- known bytes grow by bs
Appends None new bs = ⊤
Appends (Some xs) None bs = ⊥
Appends (Some xs) (Some ys) bs = ys ≡ xs ++ bs

-- known bytes begin with bs, and lose them
Consumes None new bs = ⊤
Consumes (Some xs) None bs = ⊥
Consumes (Some xs) (Some ys) bs = xs ≡ bs ++ ys

-- no known byte is left
IsAtEnd None = ⊤
IsAtEnd (Some xs) = xs ≡ []
```
"""

# The chapters of the page: what each says at its head, the calls, or the types with all that is implemented for them, whose
# contracts it shows, and the crates and files whose definitions it has. A definition stands in the first chapter that has
# it: in the first chapter stand all those on which its call stands.
Chapter = namedtuple("Chapter", "title words calls places")
CHAPTERS = [
    Chapter(
        "The headline",
        """All on which the headline stands, from the kernel of two particles to the stream of a deck. It takes this chapter alone
to read it: the headline stands on no definition of a later chapter.""",
        ("sph_top/src/bytes.rt run_bytes",),
        "",
    ),
    Chapter(
        "Devices and answers",
        """The program's own call, `swiftq`, which reads words and a source, and writes to two sinks. Its job `run` goes through the
function that `run_bytes` goes through. What the other jobs write stands in the chapters after this one.

""" + TOLD,
        ("sph_top/src/answer.rt swiftq",),
        "qs_gate sph_edge sph_words sph_top sph_report/specs/CheckLine.antt sph_report/specs/DeckLines.antt sph_report/specs/WordsLines.antt",
    ),
    Chapter(
        "The job `tree`: cells and tasks",
        "What the two lines of `tree` tell: the octree of a deck's places, its cover, and the graph of a step's tasks.",
        (),
        "sph_num/src/kind.rt sph_num/specs/Kinds.antt cell_geom cell_tree pair_cover task_weight task_graph qs_core sph_report/specs/TreeLines.antt",
    ),
    Chapter(
        "The job `generate`: a lattice",
        "The deck that is drawn from a side and a seed, as numbers and as text.",
        (),
        "sph_lattice",
    ),
    Chapter("The job `sample`: a summary", "The lines of sums that stand for a stream.", (), "sph_run sph_report"),
    Chapter(
        "Adapters, exit status and laws",
        """The adapters that `main` puts over std's reader and writer, whose `R.remaining` and `W.contents` are the bytes that std's
own contracts tell of them. For standard input and output std tells none, and there no clause says anything of the bytes: what
carries over is that `swiftq` is one function for all devices, which can't tell one from another. Then the
process's exit status, and laws of every run of an accepted deck, each the contract of a function that does nothing.""",
        (
            "sph_edge/src/adapters.rt StdSource",
            "sph_edge/src/adapters.rt StdSink",
            "sph_top/src/status.rt exit_of",
            "sph_plain/src/laws.rt runs_stay_in_bounds",
            "sph_plain/src/laws.rt momentum_is_kept",
            "sph_run/src/laws.rt streams_can_be_read",
            "sph_run/src/laws.rt outputs_ignore_work",
            "sph_run/src/laws.rt snapshots_keep_momentum",
        ),
        "",
    ),
]
HEADLINE = "sph_top/specs/Headline.antt"
CALLS = [call.split()[1] for chapter in CHAPTERS for call in chapter.calls]

TITLE = """# What the theorem says

<!-- Made by tools/theorem.py: after a change of a definition run `python3 tools/theorem.py --write`. -->

`swiftq` moves the particles of a gas by smoothed-particle hydrodynamics in a periodic box, in whole numbers. A *deck* is its
input: a TOML text of parameters and particles. A *stream* is its output: snapshots of all particles at some of the run's
*ticks*, the steps of its clock. Each particle stands in a *time bin*, which says at which ticks it is *due*: then its density,
its *ghost* (pressure over density squared) and its force are summed up, and it is *kicked*, which changes its momentum.

The headline is one clause of the call `run_bytes`, and this is what it says:
"""
PREFACE = """After it stands all that one has to read to know what its words mean. Then comes the contract of the program's own call,
and what else that call speaks of: {definitions} definitions in {files} files of {crates} crates, {lines} lines of definitions.
What none of them cites can't change what the clauses say.

**Every interleaving.** No clause names a schedule, and so each speaks of all of them. A clause is proved for each answer
that the call can give: the code that starts the threads is given no fact on which of them goes first, or how far one has
come when another begins. What threads share are words, each read and written in one step, in one order that all threads see, and blocks, which one
thread has at a time.
Between any two steps of one thread the proof takes these words as any that a rule allows, whatever the others
did meanwhile. That rule is part of the proof and of no clause. What is proved of the answer then holds whatever happened, and since neither
the number of workers nor their order stands in it, they can't change it.

**Nothing is required.** `run_bytes` and `swiftq` have no `requires`: each clause holds of any bytes, words, source, sinks
and number of workers. The toolchain proves of both that they return, and that no number overflows and no index is out of range.

**What no clause says.** `NoMemory` may be answered at any time: a call that always did so would meet every clause, and tests
alone show that ample memory is never refused. Nor does a clause say how the answer is found: that threads share the work by
a graph of tasks is tested, and how fast it is measured. That these sums are good physics is no clause either: the definitions
say which sums they are.

**What is trusted** beside this page: the toolchain, which checks the proofs and builds the program, and its definitions in
the last list; that the crate `toml` reads TOML; `main`, which hands the words, the standard streams and the status over; the
system below. [README.md](../README.md#what-is-trusted) has the list.

**How to read.** Take the clauses first, each with the comment over it, and then a chapter from the top down: a name that
you meet is defined above, or in another chapter, or is one of the toolchain's, which the last list has. A name over a
definition is a link to its place in the sources. [MODEL.md](MODEL.md) and [FORMATS.md](FORMATS.md) say the same in words,
and MODEL.md has the scale of each number.

- `(x : A) → P` is "for every x of A, P"; `(x : A) × P` is "there is an x of A with P"; `P → Q` "if P then Q", `P × Q` "P and
  Q", `P ⊎ Q` "P or Q", `P → ⊥` "not P"; `⊤` is true and `≡` is equality. A `record` of statements, which has the type
  `Type 0`, holds where all its fields do. `λ x. e` is the function that gives e for x; `f a b` is f of a and b.
- Numbers are whole and don't wrap: ℕ from 0 on, where a - b is 0 if b is greater, and ℤ. In a clause a number of the program
  is the whole number that it stands for, and an array, a slice or a vector is the list of its elements. `slice_index xs i` is
  the element at i, and 0 past the end; `codes "abc"` are the bytes of a text.
- `x.old` and `x.new` are a borrowed value before and after the call, `x.now` one that the call only reads, `result` the answer.
  `IfOk`, `OnOk`, `OnErr` and `MatchResult` say what holds of the value of an answer or of its error.
- The word `ghost` before a member of a Rust item says that it stands for the contract alone. `abbrev` and `unfoldable` are
  hints to the checker and change no meaning. Names are a file's own: two files may each have a `number_of`.
"""

NAME = r'[^\s(){}.;,@"«»]+'
MARKS = r"(?:(?:pattern|unfoldable|abbrev|axiom|pub) )*"
DEFINED = re.compile(rf"{MARKS}(?:(?:record|data) (?P<type>{NAME})|(?P<name>{NAME})(?: \{{[^}}]*\}})? :(?=\s))")
HEADER = re.compile(r"(?:pub )?(?:use|mod) |infix")
SECTION = re.compile(r"module |mutual")
IMPORT = re.compile(r"^ *(pub |ghost )?use ([\w.]+?)(?:\.\{([^}]*)\}| as (\w+))?;?$", re.M)
ITEM = re.compile(rf"^(?:pub(?:\([^)]*\))? )?(?:(struct|enum|trait|const|static|type) (?!fn\b)(\w+)|(fn) ({'|'.join(CALLS)})\b)", re.M)
IMPL = re.compile(r"^[ ]*impl\b[^{};]*\{", re.M)
MODEL = r"\bModel\s+for\s+(?:\w+::)*(\w+)"
BODY = re.compile(r"\n([ ]*)\{(?:\n(?:.*\n)*?\1)?\}(?=\n)")
QUOTE = re.compile(r"⟦<(.*?) as (\w+)>⟧(?:\.\w+)?")
GHOST = re.compile(r"\b(?:requires|ensures)\*?(?: \w+)?\s*\{|\bghost \w+(?::| =)\s*\{")
STRING = r'"(?:\\.|[^"\\])*"'
COMMENT = re.compile(rf"{STRING}|(?m:(?:^|(?<=\s))--.*$)")
REMARK = re.compile(rf"{STRING}|//.*")
TOKEN = re.compile(rf"{STRING}|\.?{NAME}(?:\.{NAME})*|«[^»]*»")
BUILT_IN = set("= : → × ¬ ⊥ | _ Type Unit tt absurd record data pub abbrev unfoldable unfolding where in let λ module mutual result self Self u32 u64".split())
PRELUDE = set("Option Some None Result Ok Err Vec String Box Copy Clone Drop Send Sync Sized".split())
BINDS = [
    rf"(?m)^\s*{MARKS}({NAME})(?: \{{[^}}]*\}})? :(?=\s)",  # a definition, a field or a helper
    rf"[({{]((?:{NAME}\s+)+):(?=\s)",  # (x y : T)
    r"λ ([^.]*)\.(?=\s)",
    r"\blet ([^=:]*)",
    r"\{([^:={}]*)\} :",  # f {ℓ} : T
    rf"[{{;]\s*({NAME}) =",  # record {{ x = e }}
    rf"(?m)^\s*{NAME} ([^=\n]*)=(?=\s)",  # f x y = e
    r"(\w+)\s*:(?!:)",  # Rust's parameters and fields
    r"\b(?:ghost|type) (\w+)",
    r"\b(?:struct|enum|trait|fn) \w+<(\w+)",
]

# Where a name leads: to an Item or, where that is None, to a module of the toolchain.
Target = namedtuple("Target", "item module name")


def without(remarks, text):
    """The text without its comments; a string is none, whatever stands in it."""
    return remarks.sub(lambda it: it[0] if it[0].startswith('"') else "", text)


class Unresolved(Exception):
    """A name that leads nowhere, or a line that this script can't read."""


class Item:
    """A definition: its text as it is printed, its antt terms, and the Rust text beside them."""

    def __init__(self, source, name, line, text, terms, rest=""):
        self.source, self.name, self.line, self.text, self.terms, self.rest = source, name, line, text, terms, rest

    @functools.cached_property
    def targets(self):
        """Where each name of the definition leads, but for those that it binds."""
        text = "\n".join([*self.terms, self.rest])
        bound = {name for binds in BINDS for held in re.findall(binds, text) for name in re.findall(NAME, held)}
        names = {it for term in self.terms for it in TOKEN.findall(term) if it[0] not in '."0123456789'}
        found = {it: self.source.target(it) for it in names | set(re.findall(r"\b(?:\w+::)*[A-Z]\w*", self.rest))}
        for name in sorted(it for it in found if not found[it] and re.split(r"\.|::", it)[0] not in bound | BUILT_IN):
            raise Unresolved(f"{self.source.shown}:{self.line}: the name {name} in {self.name} leads nowhere")
        return {it for it in found.values() if it}

    @functools.cached_property
    def below(self):
        return {it.item for it in self.targets if it.item} - {self}


class Source:
    """A file: its head comment, its items by name, and what its `use` lines bring in, by the parts of each name."""

    def __init__(self, path):
        self.text, self.shown = path.read_text(encoding="utf-8"), str(path.relative_to(ROOT))
        self.crate = self.shown.split("/")[1]
        self.head = " ".join(it.lstrip("-/! ") for it in re.match(r"(?:(?:--|//!).*\n)*", self.text)[0].splitlines())
        self.items, self.names, self.modules, self.passed = {}, {}, {}, []
        for mark, module, braces, alias in IMPORT.findall(self.text):
            self.modules |= {} if braces else {alias or module.split(".")[-1]: module}
            self.passed += [module] if mark == "pub " and not braces else []
            for whole, alias in re.findall(r"([^\s,]+)(?: as ([^\s,]+))?", braces):
                *inner, name = whole.split(".")
                self.names[alias or name] = ".".join([module, *inner]), name
        self.read()
        self.parts = {part: it for it in [*self.names, *self.items] for part in (it.split("◌") if "◌" in it else [it])}

    def target(self, token):
        """Where a name, or a part of an operator's, leads in this file, if anywhere."""
        head, *fields = token.split(".")
        if head in self.modules and fields:
            return resolved(self, self.modules[head], fields[0])
        name = self.parts.get(head)
        if name in self.items:
            return Target(self.items[name], self.shown, name)
        return resolved(self, *self.names[name]) if name else None


class Antt(Source):
    """A file of specs/."""

    def read(self):
        self.add(self.text.splitlines())

    def add(self, lines, first=1, section=()):
        """Adds what a file, or a section of it, defines: a line that isn't indented and the lines up to the next definition.
        The opening line of a section is printed with each definition of it."""
        starts = [k for k, it in enumerate(lines) if DEFINED.match(it) or HEADER.match(it) or SECTION.match(it)]
        for begin, end in zip(starts, [*starts[1:], len(lines)]):
            comment = begin
            while comment and lines[comment - 1].startswith("--"):
                comment -= 1
            while not lines[end - 1].strip() or lines[end - 1].startswith("--"):
                end -= 1
            if SECTION.match(lines[begin]):
                self.add([it[2:] for it in lines[begin + 1 : end]], first + begin + 1, [lines[begin]])
            elif found := DEFINED.match(lines[begin]):
                text = [*section, *("  " * len(section) + it for it in lines[comment:end])]
                term = without(COMMENT, "\n".join(text))
                item = Item(self, found["type"] or found["name"], first + begin, "\n".join(text), [term])
                cases = re.findall(rf"(?m)^ +({NAME}) :", term) if re.search(r"\bdata ", lines[begin]) else []
                self.items |= dict.fromkeys([item.name, *cases], item)


class Rust(Source):
    """A file of src/."""

    def read(self):
        self.blank = re.sub(rf"//.*|{STRING}|b?'(?:\\.|[^'\\\n])'", lambda it: " " * len(it[0]), self.text)
        self.uses = {}
        for tree in re.findall(r"^(?:pub )?use ([^;]+);", self.text, re.M):
            path = re.match(r"[\w:]*(?=::)", tree)[0]
            for name, alias in re.findall(r"(\w+)(?: as (\w+))?\s*(?=[,}]|$)", tree):
                self.uses[alias or name] = path, name
        for found in ITEM.finditer(self.text):
            kind, name = filter(None, found.groups())
            self.items.setdefault(name, self.item(found.start(), kind, name))

    def item(self, at, kind, name):
        """The item that begins at a place of the text, with the comment over it and what is printed with it: its model, and
        for a type of a chapter all that is implemented for it."""
        begin = at
        while re.match(r"//|#\[", line := self.text[self.text.rfind("\n", 0, begin - 1) + 1 : begin]):
            begin -= len(line)
        text = self.text[begin : self.end(at, kind)]
        for impl in IMPL.finditer(self.blank):
            if name in re.findall(MODEL, impl[0]) or name in CALLS and re.search(rf"\b{name}\b[^:]*$", impl[0]):
                body = textwrap.dedent(self.text[impl.start() : self.end(impl.start(), "impl")])
                text += "\n\n" + (BODY.sub("", body[:-1]) + body[-1] if name in CALLS else body)
        text = re.sub(r"(?m)^ *(?:#\[.*\]|ghost use [^;]*;)\n(?:\n(?= *ghost))?", "", text)
        rest, terms = cut(without(REMARK, text))
        rest += " ".join(" ".join(it) for term in terms for it in QUOTE.findall(term))
        terms = [QUOTE.sub("self", term) for term in terms]
        rest = re.sub(r"(?m)^    [A-Z]\w*" if kind == "enum" else STRING, "", rest)
        return Item(self, name, self.text.count("\n", 0, at) + 1, text, terms, rest)

    def end(self, at, kind):
        """Where an item ends: a function in front of its body, a constant at its semicolon, else there or behind a brace."""
        if kind == "fn":
            return re.compile(r"\n\{(?:\n|\}\n)").search(self.blank, at).start()
        ends, depth = ";" if kind in ("const", "static") else ";}", 0
        for at in range(at, len(self.blank)):
            depth += (self.blank[at] in "([{") - (self.blank[at] in ")]}")
            if not depth and self.blank[at] in ends:
                return at + 1
        raise Unresolved(f"{self.shown}: an item has no end")

    def target(self, token):
        """As for antt; else by the `use` lines, or Rust's prelude."""
        head, *inner = re.split(r"\.|::", token)
        if "::" in token and head in toolchain():
            return Target(None, "::".join([head, *inner[:-1]]), inner[-1])
        if "::" in token and head in ("self", "super", "crate"):
            return self.only(self.crate, inner[-1])
        found = super().target(".".join([head, *inner]))
        if found or head not in self.uses:
            return found or (Target(None, "Rust's prelude", token) if token in PRELUDE else None)
        path, name = self.uses[head]
        root = path.split("::")[0]
        if root in toolchain():
            return Target(None, "::".join([path, name, *inner][:-1]), [name, *inner][-1])
        return self.only(root if root in crates() else self.crate, name)

    def only(self, crate, name):
        """Where the one item of a crate that has this name stands."""
        files = (ROOT / "crates" / crate / "src").glob("**/*.rt")
        items = [source(it).items[name] for it in files if name in source(it).items]
        return Target(items[0], crate, name) if len(items) == 1 else None


def cut(text):
    """Takes the ghost terms out of a Rust text, and returns what is left and the terms."""
    rest, terms = "", []
    while found := GHOST.search(text):
        depth, end = 1, found.end()
        while depth:
            depth += (text[end] == "{") - (text[end] == "}")
            end += 1
        terms.append(text[found.end() : end - 1])
        rest, text = rest + text[: found.end() - 1], text[end:]
    return rest + text, terms


@functools.cache
def source(path):
    return (Antt if path.suffix == ".antt" else Rust)(path)


@functools.cache
def crates():
    """The lines of crates.txt: each crate, with the libraries that it names."""
    lines = [it.split("#")[0].partition(":") for it in (ROOT / "crates.txt").read_text(encoding="utf-8").splitlines()]
    return {name.split()[0]: libraries.split() for name, colon, libraries in lines if colon}


@functools.cache
def toolchain():
    return {"std", "core", *(it for libraries in crates().values() for it in libraries)} - {*crates()}


def resolved(user, module, name):
    """Where the name of a module leads, which a `use` line of the file `user` brings in."""
    crate, path = module.split(".")[1], module.split(".")[3:]
    if crate in toolchain():
        return Target(None, module, name)
    found = None
    if path and crate in crates():
        found = declared(crate, path[1:], name) if path[0] == "declared" else defined(user, crate, path, name)
    if not found:
        raise Unresolved(f"{user.shown}: the name {name} of {module} leads nowhere")
    return found


def defined(user, crate, path, name):
    """A definition of specs/: in the module's file, behind a type of the file above it, or passed on by specs/Lib.antt."""
    base = ROOT / "crates" / crate / "specs"
    files = [base.joinpath(*path[:-1], f"{path[-1]}.antt"), base.joinpath(*path, "Lib.antt")]
    files += [base.joinpath(*path[:-1]).with_suffix(".antt")] if path[1:] else []
    found = next((it for file in files if file.is_file() and (it := source(file).target(name))), None)
    passed = [it for it in source(base / "Lib.antt").passed if it.split(".")[-1] == path[-1]]
    return found or (resolved(user, passed[0], name) if passed else None)


def declared(crate, path, name):
    """The Rust type, variant or constant behind a path of `specs.declared`."""
    modules = [it for it in path if it[0].islower()]
    owner = [it for it in path[len(modules) :] if it != "TheConstants"]
    base = ROOT / "crates" / crate / "src"
    files = [base.joinpath(*modules[:-1], f"{modules[-1]}.rt"), base.joinpath(*modules, "mod.rt")] if modules else [base / "lib.rt"]
    items = [source(it).items.get(owner[0] if owner else name) for it in files if it.is_file()]
    return Target(items[0], crate, name) if items and items[0] else None


@functools.cache
def modelled(crate):
    """The types of a crate that have an `impl Model` somewhere: at the top of a file or in a module, by whatever path."""
    files = (ROOT / "crates" / crate / "src").glob("**/*.rt")
    return {name for file in files for impl in IMPL.findall(source(file).blank) for name in re.findall(MODEL, impl)}


def reached(top):
    """The definitions on which an item stands."""
    found, left = set(), {top}
    while left:
        found |= left
        left = {it for item in left for it in item.below} - found
    for item in found:
        if isinstance(item.source, Rust) and item.name in modelled(item.source.crate) and not re.search(MODEL, item.text):
            raise Unresolved(f"{item.source.shown}: the model of {item.name} stands in another file")
    return found - {top}


def in_order(items):
    """Puts each item behind those of them that it cites, a file at a time where that goes."""
    place = lambda it: ([*crates()].index(it.source.crate), it.source.shown, it.line)
    below = {it: it.below & items for it in items}
    outside = {it: below[it] - {*it.source.items.values()} for it in items}
    left, done, last = sorted(items, key=place), {}, None
    while left:
        ready = [it for it in left if below[it] <= done.keys()] or left
        split = {it.source for it in left if not outside[it] <= done.keys()}
        last = min(ready, key=lambda it: (last and it.source is not last.source, it.source in split))
        done[last] = left.remove(last)
    return [*done]


def call_of(call):
    """The function or type that a chapter names by its file and name."""
    file, name = call.split()
    found = source(ROOT / "crates" / file).items.get(name)
    if not found:
        raise Unresolved(f"crates/{file} has no {name}")
    return found


def has(chapter, item):
    """Whether a definition belongs to a chapter by its crate or file."""
    return item.source.crate in chapter.places.split() or item.source.shown.removeprefix("crates/") in chapter.places.split()


def in_chapters():
    """The chapters with their calls and their definitions in order."""
    calls = {chapter: [call_of(call) for call in chapter.calls] for chapter in CHAPTERS}
    stood_on = {chapter: set().union(*map(reached, calls[chapter])) for chapter in CHAPTERS}
    first, *middle, last = CHAPTERS
    held = {chapter: set() for chapter in CHAPTERS} | {first: stood_on[first]}
    inner = set().union(*(stood_on[chapter] for chapter in middle))
    for item in (inner | stood_on[last]) - held[first] - {it for named in calls.values() for it in named}:
        held[next((it for it in middle if item in inner and has(it, item)), last)].add(item)
    return [(chapter, calls[chapter], in_order(held[chapter])) for chapter in CHAPTERS]


def shown(item):
    return [f"[`{item.name}`](../{item.source.shown}#L{item.line})", "", "```", item.text, "```", ""]


def head(item, last):
    """The head of an item's file, where it is the first of its file behind `last`."""
    if last and item.source is last.source:
        return []
    return [f"### {item.source.shown}", "", re.sub(r"(`[^`]*`)|([*_<\\])", lambda it: it[1] or f"\\{it[2]}", item.source.head), ""]


def contents(chapters):
    """The table of contents: each chapter with its calls and the number of its definitions."""
    lines = ["## Contents", ""]
    for chapter, calls, items in chapters:
        anchor = re.sub(r"[^\w -]", "", chapter.title.lower()).replace(" ", "-")
        named = ", ".join(f"`{call.name}`" for call in calls)
        lines.append(f"- [{chapter.title}](#{anchor}): " + (f"{named}; " if named else "") + f"{len(items)} definitions")
    return [*lines, "- [Taken from the toolchain](#taken-from-the-toolchain)", ""]


def page():
    chapters = in_chapters()
    items = [it for chapter, calls, held in chapters for it in held]
    files = {it.source for it in items}
    counts = {"definitions": len(items), "files": len(files), "crates": len({it.crate for it in files})}
    counts["lines"] = sum(it.text.count("\n") + 1 for it in items)
    headline = [it for it in items if it.source.shown.endswith(HEADLINE)]
    lines = [TITLE] + [line for it in [*chapters[0][1], *reversed(headline)] for line in shown(it)]
    lines += [PREFACE.format(**counts), *contents(chapters)]
    for chapter, calls, held in chapters:
        lines += [f"## {chapter.title}", "", chapter.words.strip(), ""]
        lines += [line for call in calls if chapter is not CHAPTERS[0] for line in shown(call)]
        held = [it for it in held if it not in headline]
        for last, item in zip([None, *held], held):
            lines += head(item, last) + shown(item)
    lines += ["## Taken from the toolchain", "", "What the texts above use of std, the toolchain's libraries and Rust's prelude:", ""]
    outer = {it for item in items + [it for chapter, calls, held in chapters for it in calls] for it in item.targets if not it.item}
    for module in sorted({it.module for it in outer}):
        lines.append(f"- `{module}`: " + ", ".join(f"`{name}`" for name in sorted(it.name for it in outer if it.module == module)))
    return "\n".join(lines) + "\n"


def bare():
    """The printed definitions that don't begin with a comment, each with its place."""
    items = [it for chapter, calls, held in in_chapters() for it in [*calls, *held]]
    lines = {it: [line.strip() for line in it.text.splitlines() if not SECTION.match(line)] for it in items}
    return [f"{it.source.shown}:{it.line}: {it.name}" for it in items if not re.match("--|//", lines[it][0])]


# A tree for the self-test: by file, its text. Each name that ends in `_found` has to be on the page that begins with `call`.
TREE = {
    "crates.txt": "one:\n",
    "crates/one/specs/Lib.antt": "pub mod Words\n",
    "crates/one/specs/Words.antt": """-- Words.
use Rattle.std.specs.Prelude.{ℕ, List, codes}

-- behind a string with two hyphens
abbrev pub first_found : List ℕ
first_found = codes "run -- now"

-- cited behind that string, on its line
abbrev pub second_found : List ℕ
second_found = third_found "a -- b" fourth_found -- and not fifth_lost

abbrev pub third_found : List ℕ
third_found = first_found

abbrev pub fourth_found : List ℕ
fourth_found = first_found

abbrev pub fifth_lost : List ℕ
fifth_lost = first_found
""",
    "crates/one/src/lib.rt": """//! Calls.
ghost use Rattle.one.specs.Words.{second_found};

use std::marker::Model;

/// By a path.
pub struct Path_found {
    at: u8,
}

impl<T: Copy> std::marker::Model for self::Path_found {
    ghost view = { λ path. path.at };
}

/// In a module.
pub struct Inner_found {
    at: u8,
}

mod models {
    impl Model for super::Inner_found {
        ghost view = { λ inner. inner.at };
    }
}

/// The call.
pub fn call(path: &Path_found, inner: &Inner_found, text: &str) -> u8
    ensures { second_found }
{
    0
}
""",
}


def self_test():
    """What the tool overlooks in a small tree that it once got wrong; nothing, where it does as it should."""
    global ROOT, ITEM
    kept = ROOT, ITEM
    with tempfile.TemporaryDirectory() as folder:
        for name, text in TREE.items():
            (Path(folder) / name).parent.mkdir(parents=True, exist_ok=True)
            (Path(folder) / name).write_text(text, encoding="utf-8")
        try:
            ROOT, ITEM = Path(folder), re.compile(ITEM.pattern.replace("run_bytes", "call|run_bytes"), re.M)
            forget()
            items = {it.name: it for it in reached(call_of("one/src/lib.rt call"))}
            wanted = {name for text in TREE.values() for name in re.findall(r"\w+_found", text)}
            models = {name for name in items if items[name].source.crate == "one" and "ghost view" in items[name].text}
            missed = sorted(wanted - {*items}) + sorted({"Path_found", "Inner_found"} - models)
            return missed + sorted({"Path_found", "Inner_found"} - modelled("one")) + sorted({"fifth_lost"} & {*items})
        finally:
            ROOT, ITEM = kept
            forget()


def forget():
    """Forgets every file that was read."""
    for read in (source, crates, toolchain, modelled):
        read.cache_clear()


def main():
    options = argparse.ArgumentParser(description=__doc__.split("\n")[0])
    options.add_argument("--write", action="store_true", help="write docs/THEOREM.md")
    options.add_argument("--check", action="store_true", help="end with 1 where docs/THEOREM.md has another text, or the self-test fails")
    options.add_argument("--bare", action="store_true", help="list the printed definitions that have no comment of their own")
    options.add_argument("--self-test", action="store_true", help="end with 1 where a small tree is read wrongly")
    given = options.parse_args()
    try:
        overlooked = self_test() if given.self_test or given.check else []
        text = "" if given.self_test else "\n".join([*bare(), ""]) if given.bare else page()
    except (Unresolved, OSError) as error:
        print(f"tools/theorem.py: {error}", file=sys.stderr)
        return 2
    if overlooked:
        print(f"tools/theorem.py: the self-test fails at {', '.join(overlooked)}", file=sys.stderr)
        return 1
    if given.check and (not PAGE.is_file() or PAGE.read_text(encoding="utf-8") != text):
        print("docs/THEOREM.md is not what its tool prints: run python3 tools/theorem.py --write", file=sys.stderr)
        return 1
    if given.write:
        PAGE.write_text(text, encoding="utf-8")
    elif not given.check:
        sys.stdout.write(text)
    return 0


if __name__ == "__main__":
    sys.exit(main())

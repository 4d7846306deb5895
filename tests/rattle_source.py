"""Rattle source as far as its calls: which function calls which, over the project's crates and into the kit's libraries.

The project's functions and methods are read in their source. A method whose receiver is not told by its form is followed into every method of its name:
those of the project, and those of the kit on built-in types, on the kit's types that the project names or that a call in the same body returns, and in
traits. The kit's functions are read in the MIR that the kit ships beside its libraries, which has resolved their receivers, traits and macros. Where one
of them calls what its caller gives it, as the `clone` of what is filled, that of every integer type is followed; what it is given in truth, closures among
it, stands in the caller's MIR alone.

What cannot be read, a call that leads nowhere, a method or a form that is not known here, ends the script: nothing is passed over.
"""
import copy
import json
import re
import subprocess
from collections import namedtuple
from pathlib import Path

TOKEN = re.compile(r"""//[^\n]*|/\*.*?\*/|b"(?:\\.|[^"\\])*"|b'(?:\\.|[^'\\])'|\w+|::|->|\.\.=?|[/%]=?|\S""", re.S)
KEYWORDS = set("as break const continue else enum extern fn for if in let loop match mod move mut pub ref return static struct type use while".split())
NUMBERS = set("u8 u16 u32 u64 u128 usize i8 i16 i32 i64 i128 isize f32 f64 bool".split())
BUILT_IN = {"count_ones", "leading_zeros", "trailing_zeros", "wrapping_add", "wrapping_sub", "wrapping_mul"}  # of a number: no function stands behind these
MACROS = {"unreachable": "core::assertions::unreachable"}  # and what they call
TRIES = ("branch", "from_residual")  # what `?` calls
WALKS = ("into_iter", "next")  # what a for loop calls, but over a range or a slice, which the compiler walks itself
COMPILED = " if it is one"  # said of calls that the compiler may have none for: of `len`, `?`, and what a for loop is over
AFTER_AN_ITEM = set("fn pub use ghost struct enum const type mod static extern impl unsafe trait macro_rules #".split())
RANGES = {"core::iter::ranges::" + name for name in ("Range", "RangeInclusive", "RangeFrom", "RangeTo", "RangeToInclusive", "RangeFull")}
DIVISIONS = ("Div", "Rem", "FloatDiv", "FloatRem")  # of the MIR
KNOWN = RANGES | {"core::option::Option", "core::result::Result"}  # the kit's types that the language has forms for, or that every file may name

Token = namedtuple("Token", "text at")
Function = namedtuple("Function", "name file public exported parameters body owner trait")  # parameters and body: tokens; owner: of a method, its type
Site = namedtuple("Site", "said own kit")  # a call: how it is written, and the functions that it may mean, of the project and of the kit


class Unreadable(Exception):
    pass


def kit():
    """The folder of the kit."""
    return Path(subprocess.run(["rt", "doc"], capture_output=True, text=True, check=True).stdout.strip()).parent


def divisors(body):
    """What stands behind each / and % of a body."""
    words = [t.text for t in body] + [""]
    return [words[i + 1] for i, word in enumerate(words) if word[:1] in ("/", "%")]


def tokens_of(text):
    return [Token(m[0], m.start()) for m in TOKEN.finditer(text) if not m[0].startswith(("//", "/*"))]


def closing(tokens, at):
    """The place of the bracket that closes the one at this place."""
    opening, depth = tokens[at].text, 0
    other = {"{": "}", "(": ")", "[": "]", "<": ">"}[opening]
    for place in range(at, len(tokens)):
        depth += {opening: 1, other: -1}.get(tokens[place].text, 0)
        if depth == 0:
            return place
    raise Unreadable(f"a bracket {opening} is not closed")


def parts_of(tokens, at):
    """Of the function whose `fn` stands at this place: where its parameters begin and end, and its body. It has none where a `;` is first."""
    opens = next(i for i in range(at, len(tokens)) if tokens[i].text == "(")
    place = closes = closing(tokens, opens)
    clause = False
    while True:
        place += 1
        word = tokens[place].text
        if word in ("requires", "ensures"):
            clause = True
        elif word == "[" and not clause:
            place = closing(tokens, place)
        elif word == ";":
            return opens, closes, place, place
        elif word == "{":
            end = closing(tokens, place)
            if not clause:
                return opens, closes, place, end
            place, clause = end, False


def opening(words, at):
    """The place of the bracket that the one at this place closes."""
    closes, depth = words[at], 0
    other = {")": "(", "]": "[", ">": "<"}[closes]
    for place in range(at, -1, -1):
        depth += {closes: 1, other: -1}.get(words[place], 0)
        if depth == 0:
            return place
    raise Unreadable(f"a bracket {closes} is not opened")


def type_name(words):
    """The name of a type without references, lifetimes and parameters, as the last part of its path."""
    words = list(words)
    while words[:1] == ["&"] or words[:1] == ["mut"] or words[:1] == ["'"]:
        words = words[2 if words[0] == "'" else 1:]
    end = words.index("<") if "<" in words else len(words)
    return words[end - 1] if words and re.match(r"[^\W\d]", words[end - 1]) else "".join(words)


class Module:
    """A file: its functions by name, what its `use` items bring in, by the name that they give it, and its modules."""

    def __init__(self, path, file, text, own):
        self.own = own  # of the project, and not of the kit
        self.unread = None  # why it is not read as a whole
        self.path, self.file, self.functions, self.brought, self.passed_on, self.modules = path, file, {}, {}, [], []
        tokens, at = tokens_of(text), 0
        self.words = {t.text for t in tokens if t.text[0].isupper()}
        while at < len(tokens):
            at = self.item(tokens, at)

    def item(self, tokens, at):
        """Reads what stands at this place of the top level; the place behind it."""
        word, before = tokens[at].text, [t.text for t in tokens[max(0, at - 6):at] if t.text != "const"][-5:]
        if word == "use":
            end = next(i for i in range(at, len(tokens)) if tokens[i].text == ";")
            if before[-1:] != ["ghost"]:
                self.use([t.text for t in tokens[at + 1:end]], before[-1:] == ["pub"])
            return end + 1
        if word == "mod" and tokens[at + 2].text == ";":  # one within a file is not read: a call that leads into it leads nowhere
            self.modules.append(tokens[at + 1].text)
        if word in ("impl", "trait") and self.own and before[-1:] != ["ghost"]:
            return self.methods(tokens, at)
        if word == "macro_rules" or [t.text for t in tokens[at + 1:at + 3]] in (["!", "("], ["!", "{"]):
            self.unread = "macros are not read here"
        if word == "fn":
            exported = before[1:] == ["extern", '"', "C", '"']
            return self.function(tokens, at, before[0 if exported else -1:][:1] == ["pub"], exported)
        return closing(tokens, at) + 1 if word == "{" else at + 1

    def methods(self, tokens, at):
        """`impl<..> Type { .. }`, `impl<..> Trait for Type { .. }`, or `trait Name { .. }` with the bodies that stand in it."""
        opens = next(i for i in range(at, len(tokens)) if tokens[i].text == "{")
        end, head = closing(tokens, opens), tokens[at + 1:opens]
        words = [t.text for t in head[closing(head, 0) + 1 if head and head[0].text == "<" else 0:]]
        words = words[:words.index("where")] if "where" in words else words
        trait, of = (words[:words.index("for")], words[words.index("for") + 1:]) if "for" in words else (None, words)
        owner = type_name(of if tokens[at].text == "impl" else of[:1])
        if trait:  # the name that the compiler gives an impl
            given = re.findall(r"\w+", " ".join(trait[trait.index("<"):])) if "<" in trait else []
            trait = type_name(trait) + "".join(g[:1].upper() + g[1:] for g in given)
        inside = opens + 1
        while inside < end:
            if tokens[inside].text == "fn":
                public = "pub" in [t.text for t in tokens[inside - 2:inside]]
                inside = self.function(tokens, inside, public, False, owner, trait, end)
            elif tokens[inside].text in ("{", "("):
                inside = closing(tokens, inside) + 1
            else:
                inside += 1
        return end + 1

    def use(self, words, public):
        """One path, `a::b`, `a::b as c`, or `a::{b, c as d}`."""
        text = "".join(f" {w} " if w == "as" else w for w in words)
        head, group, rest = text.partition("{")
        for entry in rest.rstrip("}").split(",") if group else [""]:
            path, _, alias = (head + entry).partition(" as ")
            parts = [p for p in path.strip().split("::") if p]
            name = alias.strip() or parts[-1]
            self.brought[name] = parts
            if public:
                self.passed_on.append(name)

    def function(self, tokens, at, public, exported, owner=None, trait=None, last=None):
        """`fn name(parameters) -> type`, clauses of contract, body; of a trait's, there may be none."""
        name = tokens[at + 1].text
        opens, closes, place, end = parts_of(tokens, at)
        if place == end:
            return end + 1
        if end + 1 < len(tokens) and end + 1 != last and tokens[end + 1].text not in AFTER_AN_ITEM:
            raise Unreadable(f"{self.file}: {name}: what follows its body is no item")
        key = f"{owner}{trait or ''}::{name}" if owner else name
        if key in self.functions and self.own:
            raise Unreadable(f"{self.file}: {key} is there twice")
        self.functions[key] = Function("::".join(self.path + [key]), self.file, public, exported, tokens[opens + 1:closes], tokens[place + 1:end], owner, trait)
        return end + 1


def self_type(code):
    """What a function of the MIR takes first: "built-in", "given" for a type that its caller names, or the name of a type of the kit."""
    if not code["params"]:
        return None
    taken = code["locals"][1]["ty"]
    while isinstance(taken, dict) and "Ref" in taken:
        taken = taken["Ref"][2]
    if isinstance(taken, dict) and "Named" in taken:
        return taken["Named"][0]["name"]
    return "given" if isinstance(taken, dict) and "Param" in taken else "built-in"


def is_method(name):
    """Whether a function of the MIR stands at a type, in an impl or in a trait, by its name: modules are in small letters."""
    at = name.split("::")[-2]
    return at[0].isupper() or "+" in at or at in NUMBERS or at in ("str", "char")


def walk(code, found):
    """Gathers of a piece of MIR, in `found`, what it calls, the impls that it names, what it calls of those that it is given, and what it divides by."""
    if isinstance(code, list):
        for part in code:
            walk(part, found)
    if not isinstance(code, dict):
        return
    for word, part in code.items():
        if word == "Fn" and isinstance(part[0], str):
            found["calls"].add(part[0])
        elif word == "Impl" and isinstance(part[0], str):
            found["impls"].add(part[0])
        elif word == "Method" and "Impl" in part[0]:
            found["of impls"].add((part[0]["Impl"][0], part[1]))
        elif word == "Method":
            found["given"].add((part[0]["Given"], part[1]))
        elif word == "VtMethod":
            found["tables"].append(str(part))
        elif word == "Op2" and (part[0] if isinstance(part[0], str) else min(part[0])) in DIVISIONS:
            value = part[2].get("Int", {}).get("value") if isinstance(part[2], dict) else None
            found["divisors"].append("?" if value is None else str(value))
        walk(part, found)


def gathered(code):
    found = {"calls": set(), "impls": set(), "of impls": set(), "given": set(), "divisors": [], "tables": []}
    walk(code["body"], found)
    return found


class Kit:
    """The functions of the kit's libraries, by the MIR that they were compiled from."""

    def __init__(self):
        self.folder, self.functions, self.loaded, self.facts, self.by_name, self.of_impl, self.of_trait = kit() / "rlibs", {}, set(), {}, {}, {}, {}
        self.type_names, self.named, self.reached = None, {}, {}
        self.load("core")

    def load(self, crate):
        self.loaded.add(crate)
        file = self.folder / f"{crate}.rlib" / "toolchain" / "mir.json"
        if not file.is_file():
            raise Unreadable(f"the kit has no MIR of {crate}")
        for name, code in json.loads(file.read_text(encoding="utf-8")):
            self.functions[name] = code
            self.by_name.setdefault(name.split("::")[-1], []).append(name)
            of = code["generics"]["method_of"] or {}
            if "Impl" in of:
                self.of_impl.setdefault(of["Impl"][0], []).append((of["Impl"][1], name))
            elif "Trait" in of:
                self.of_trait[tuple(of["Trait"])] = name.split("::")[-1].removesuffix("+decl")

    def code(self, name):
        if name not in self.functions and name.split("::")[0] not in self.loaded:
            self.load(name.split("::")[0])
        if name not in self.functions:
            raise Unreadable(f"the kit's MIR has no {name}")
        return self.functions[name]

    def methods(self, name, types):
        """The methods of a name on these types of the kit, on built-in types where these are among them, and in traits."""
        return {n for n in self.by_name.get(name, ()) if is_method(n) and self_type(self.functions[n]) in types | {"given"}}

    def types(self, words):
        """The kit's types of these names."""
        if self.type_names is None:
            self.type_names = {kind for code in self.functions.values() if (kind := self_type(code))}
        words = frozenset(words)
        if words not in self.named:
            self.named[words] = {kind for kind in self.type_names if kind.split("::")[-1] in words}
        return self.named[words]

    def of_number(self, kind, name):
        """The functions of a name that stand at a number type: its own, and those of its impls."""
        own = re.compile(rf"{kind}|{kind.capitalize()}[A-Z].*")
        return {n for n in self.by_name.get(name, ()) if own.fullmatch(n.split("::")[-2])}

    def returned(self, name):
        """The kit's types in what a function returns."""
        return set(re.findall(r'"Named": \[\{"name": "([^"]+)"', json.dumps(self.code(name)["locals"][0]["ty"])))

    def written(self, name):
        """The modules that may hold a function, as a path, and its own name: a closure's is that of the function that it stands in."""
        path = name.split("::")
        if "+Fn" in path[1]:
            path = path[1].partition("+Fn")[0].split("++")
        return path[:-1], path[-1]

    def next(self, name):
        """What a function calls, and what it divides by. Of an impl that it names all is called."""
        if name not in self.facts:
            code = self.code(name)
            found = gathered(code)
            calls, bounds = set(found["calls"]), code["generics"]["bounds"]
            if found["tables"]:
                raise Unreadable(f"{name}: what it calls by a table is not known")
            calls |= {n for impl, at in found["of impls"] for place, n in self.impl(impl) if place == at}
            for impl in found["impls"]:
                calls |= {n for _, n in self.impl(impl)}
            for place, at in found["given"]:
                method = self.of_trait.get((bounds[place]["of"], at)) if place < len(bounds) else None
                if method is None and "::ops::Fn" not in bounds[place]["of"] and not bounds[place]["of"].endswith("::Destruct"):
                    raise Unreadable(f"{name}: what it calls of {bounds[place]['of']} is not known")
                calls |= {n for n in self.by_name.get(method, ()) if re.fullmatch(r"(?:[UI](?:8|16|32|64|128|size)|Bool)[A-Z].*", n.split("::")[-2])}
            self.facts[name] = calls, found["divisors"]
        return self.facts[name]

    def impl(self, name):
        if name not in self.of_impl and name.split("::")[0] not in self.loaded:
            self.load(name.split("::")[0])
        return self.of_impl.get(name, ())

    def reach(self, starts):
        """What these functions reach, themselves among it."""
        starts = frozenset(starts)
        if starts not in self.reached:
            reached, ahead = set(), list(starts)
            while ahead:
                name = ahead.pop()
                if name not in reached:
                    reached.add(name)
                    ahead += self.next(name)[0]
            self.reached[starts] = reached
        return self.reached[starts]


class Source:
    """Every crate's modules by their paths."""

    def __init__(self, root):
        self.root, self.modules, self.known, self.text, self.of_file, self.kit, self.divided, self.project = root, {}, {}, None, None, Kit(), {}, None
        lines = re.findall(r"^(\w+)( staticlib)?:(.*)", (root / "crates.txt").read_text(), re.M)
        listed, needed = {name: word for name, word, _ in lines}, {name: below.split() for name, _, below in lines}
        self.crates = {name: root / "crates" / name / "src" for name in listed}
        self.static = {name for name, word in listed.items() if word}
        self.own, self.linked, ahead = set(listed), set(), list(self.static)
        while ahead:  # the crates that a static library is made of
            name = ahead.pop()
            self.linked |= {name} & self.own
            ahead += [below for below in needed.get(name, ()) if below not in self.linked]
        for folder in (kit() / "rattle").iterdir():
            if (folder / "src").is_dir():
                self.crates.setdefault(folder.name, folder / "src")

    def altered(self, file, text):
        """The same source with another text for a file. What was read of the others is kept."""
        other = copy.copy(self)
        other.text, other.of_file, other.project = text, file, None
        other.modules = {name: m for name, m in self.modules.items() if m is None or m.file != file}
        return other

    def module(self, path):
        """The module of a path, or None."""
        key = "::".join(path)
        if key not in self.modules:
            self.modules[key] = self.read(path)
        return self.modules[key]

    def read(self, path):
        if path[0] not in self.crates:
            return None
        folder = self.crates[path[0]]
        if len(path) == 1:
            files = [folder / "lib.rt", folder / "main.rt"]
        else:
            parent = self.module(path[:-1])
            if parent is not None and path[-1] in parent.passed_on:
                return self.module(parent.brought[path[-1]])
            if parent is None or path[-1] not in parent.modules:
                return None
            files = [folder.joinpath(*path[1:]).with_suffix(".rt"), folder.joinpath(*path[1:], "mod.rt")]
        file = next((f for f in files if f.is_file()), None)
        if file is None:
            raise Unreadable(f"no file for {'::'.join(path)}")
        text = self.text if file == self.of_file else file.read_text(encoding="utf-8")
        return Module(path, file, text, path[0] in self.own)

    def find(self, path, module):
        """The function that a path in a module names, or None."""
        if "::".join(path) in module.functions:
            return module.functions["::".join(path)]
        if path[0] in ("self", "crate"):
            path = module.path[:None if path[0] == "self" else 1] + path[1:]
        elif path[0] in module.brought:
            path = module.brought[path[0]] + path[1:]
        elif path[0] in module.modules:
            path = module.path + path
        for parts in (1, 2):  # a function, or one of a type
            owner = self.module(path[:-parts]) if len(path) > parts else None
            if owner is not None:
                name = path[-parts:]
                if "::".join(name) in owner.functions:
                    return owner.functions["::".join(name)]
                return self.find(name, owner) if name[0] in owner.passed_on else None
        return None

    def own_modules(self):
        """The modules of the crates that the static libraries are made of, those below them too."""
        if self.project is None:
            self.project, ahead = [], [[name] for name in self.linked]
            while ahead:
                module = self.module(ahead.pop())
                if module.unread:
                    raise Unreadable(f"{module.file}: {module.unread}")
                self.project.append(module)
                ahead += [module.path + [name] for name in module.modules]
        return self.project

    def own_methods(self, name):
        """The project's methods of a name."""
        return {f.name for module in self.own_modules() for f in module.functions.values()
                if f.owner and f.name.split("::")[-1] == name and "self" in [t.text for t in f.parameters[:6]]}

    def sites(self, function):
        """The calls of a body."""
        if id(function) not in self.known:
            self.known[id(function)] = function, list(self.sited(function))
        return self.known[id(function)][1]

    def calls(self, function):
        """The names of the functions that a body may call, of the project and of the kit."""
        return set().union(*(s.own | s.kit for s in self.sites(function)))

    def path_before(self, words, i):
        """The path whose last name stands at this place; its parameters are left out. `<T>::f` and `<T as Trait>::f` are of T."""
        path = [words[i]]
        while words[i - 1:i] == ["::"]:
            i -= 2
            if words[i] == ">":
                opens = opening(words, i)
                if words[opens - 1:opens] == ["::"]:
                    i = opens - 2
                else:
                    inside = words[opens + 1:i]
                    return [type_name(inside[:inside.index("as")] if "as" in inside else inside)] + path
            path.insert(0, words[i])
        return path

    def local(self, words, function):
        """The names that a function's parameters and patterns bind, as far as they are told."""
        bound, i = {t.text for t in function.parameters}, 0
        for i, word in enumerate(words):
            end = {"let": "=", "for": "in", "|": "|"}.get(word)
            if end in words[i + 1:i + 60]:
                bound |= set(words[i + 1:words.index(end, i + 1)])
            if words[i:i + 2] == ["=", ">"]:
                start = max((j for j in range(i) if words[j] in ("{", ",", ";", "}")), default=0)
                bound |= set(words[start:i])
        return bound

    def sited(self, function):
        module = self.module(function.name.split("::")[:-2 if function.owner else -1])
        words = [t.text for t in function.body]
        types, bound = {"built-in"} | KNOWN | self.kit.types(set().union(*(m.words for m in self.own_modules()))), self.local(words, function)
        methods, heads = [], set()
        for i, word in enumerate(words):
            if words[i:i + 2] in ([")", "("], ["]", "("]):
                raise Unreadable(f"{function.name}: a call of what stands in brackets")
            if word == "?":
                methods += [(name, None, COMPILED) for name in TRIES]
            if word == "for":
                begins, ends = self.loop_head(words, i)
                heads |= set(range(begins, ends))
                if not self.walked(words[begins:ends]):
                    methods += [(name, None, COMPILED) for name in WALKS]
            if not re.match(r"[^\W\d]", word) or word in KEYWORDS:
                continue
            if words[i + 1:i + 2] == ["!"] and words[i + 2:i + 3] in (["("], ["["], ["{"]):
                if word not in MACROS:
                    raise Unreadable(f"{function.name}: the macro {word} is not known")
                yield Site(f"{word}!", set(), {MACROS[word]})
                continue
            behind = closing(function.body, i + 2) + 1 if words[i + 1:i + 3] == ["::", "<"] else i + 1
            called = words[behind:behind + 1] == ["("]
            if words[i - 1:i] == ["."] and called:
                ranged = words[i - 2] == ")" and ".." in self.level(words, opening(words, i - 2))
                methods.append((word, RANGES if ranged else None, COMPILED if i in heads or word == "len" else ""))
                continue
            if words[i - 1:i] == ["."] or words[i + 1:i + 2] == ["::"] and not called:
                continue
            path = self.path_before(words, i)
            if path[0] == "Self" and function.owner:
                path[0] = function.owner
            found = self.find(path, module)
            if found is None and len(path) > 1 and path[-2] in NUMBERS:
                at = self.kit.of_number(path[-2], word)
                if at:
                    yield Site("::".join(path), set(), at)
                    types |= set().union(*map(self.kit.returned, at))
                elif called and word not in BUILT_IN:
                    raise Unreadable(f"{function.name}: the call of {'::'.join(path)} leads nowhere")
            elif called or found and (len(path) > 1 or word not in bound and words[i + 1:i + 2] != [":"] and words[i - 1:i] != ["{"]):
                if found:
                    own = self.is_own(found.name)
                    yield Site("::".join(path), {found.name} if own else set(), set() if own else {found.name})
                    if not own:
                        types |= self.kit.returned(found.name)
                elif not word[0].isupper():  # else a variant or a struct is made or matched
                    raise Unreadable(f"{function.name}: the call of {'::'.join(path)} leads nowhere")
            elif len(path) > 1 and not word[0].isupper() and found is None:
                raise Unreadable(f"{function.name}: what {'::'.join(path)} is is not known")
        yield from self.method_sites(function, methods, types)

    def level(self, words, at):
        """The words within a bracket that stand in none below it."""
        depth = 0
        for word in words[at:]:
            depth += (word in ("(", "[", "{")) - (word in (")", "]", "}"))
            if depth == 0:
                return
            if depth == 1:
                yield word

    def loop_head(self, words, at):
        """Where what a for loop is over begins and ends."""
        begins = words.index("in", at) + 1
        return begins, next(i for i in range(begins, len(words)) if words[i] == "{" and words[begins:i].count("(") == words[begins:i].count(")"))

    def walked(self, over):
        """Whether the compiler walks a loop itself: over a range, whatever its ends are, or over a reference of a slice or an array by its name."""
        depth, ranged = 0, False
        for word in over:
            depth += (word in ("(", "[")) - (word in (")", "]"))
            ranged |= word == ".." and depth == 0
        return ranged or ".." in over and "." not in over or not set(over) & {"(", "?"}

    def method_sites(self, function, methods, types):
        """The calls of methods: with what each can return, more types can be meant. What walks an iterator calls its `next`."""
        if any("::Iterator::" in n for name, _, _ in methods for n in self.kit.methods(name, types)):
            methods = methods + [("next", None, COMPILED)]
        while True:
            more = set().union(*(self.kit.returned(n) for name, of, _ in methods for n in self.kit.methods(name, of or types)), types)
            if more == types:
                break
            types = more
        for name, of, compiled in methods:
            own, kits = set() if of else self.own_methods(name), self.kit.methods(name, of or types)
            if not own and not kits and name not in BUILT_IN:
                raise Unreadable(f"{function.name}: the method {name} is not known")
            yield Site(f".{name}{compiled}", own, kits)

    def named(self, name):
        """A function of the project."""
        path = name.split("::")
        owner = self.module(path[:-1])
        return owner.functions[path[-1]] if owner is not None else self.module(path[:-2]).functions["::".join(path[-2:])]

    def is_own(self, name):
        return name.split("::")[0] in self.own

    def reach(self, starts):
        """What these functions reach of the project, themselves among it, by name; with a function all that its module implements of traits."""
        reached, ahead = {}, list(starts)
        while ahead:
            function = ahead.pop()
            if function.name not in reached:
                reached[function.name] = function
                ahead += [self.named(name) for site in self.sites(function) for name in site.own]
                module = self.module(function.name.split("::")[:-2 if function.owner else -1])
                ahead += [f for f in module.functions.values() if f.trait]
        return reached

    def divisors_of_kit(self, name):
        """What a function of the kit divides by: in its MIR, and in each body of its name in the file of its module, if that can be read."""
        if name not in self.divided:
            (crate, *path), called = self.kit.written(name)
            folders = [self.crates[crate].joinpath(*path[:n]) for n in range(len(path), 0, -1)]
            files = [file for folder in folders for file in (folder.with_suffix(".rt"), folder / "mod.rt")] + [self.crates[crate] / "lib.rt"]
            file = next(file for file in files if file.is_file())
            tokens, text = tokens_of(file.read_text(encoding="utf-8")), []
            for at in range(len(tokens) - 1):
                if (tokens[at].text, tokens[at + 1].text) == ("fn", called):
                    _, _, begins, ends = parts_of(tokens, at)
                    text.append(divisors(tokens[begins:ends]))
            self.divided[name] = self.kit.next(name)[1] + sum(text, []), bool(text)
        return self.divided[name]

    def called_of_kit(self, functions):
        """What these functions may call of the kit, by name."""
        return {name for f in functions.values() for site in self.sites(f) for name in site.kit}

    def exporting(self):
        """The crates of the project that export calls for C, and those whose calls they hand on; the public calls of each: what it has and what it
        passes on."""
        found = []
        for name in self.crates:
            if name in self.linked:
                exported = [f for f in self.module([name]).functions.values() if f.exported]
                found += [name] * bool(exported) + [called.split("::")[0] for f in exported for called in self.calls(f) if self.is_own(called)]
        for name in dict.fromkeys(found):
            module = self.module([name])
            passed_on = {n: self.find([n], module) for n in module.passed_on if not n[0].isupper()}
            if None in passed_on.values():
                raise Unreadable(f"{name}: what it passes on leads nowhere: {passed_on}")
            yield name, [f for f in module.functions.values() if f.public and not f.trait] + list(passed_on.values())

"""The texts of sources: the functions of a .rt file, and the items of a .rt or an .antt file with the words that they use.
Read by the scripts that try mutants."""

import collections
import functools
import hashlib
import pathlib
import re

# Comments, strings and characters.
UNREAD = re.compile(r'//[^\n]*|/\*.*?\*/|b?r(#*)".*?"\1|b?"(?:\\.|[^"\\])*"|' + r"b?'(?:\\[^\n']+|\\'|[^\\'\n])'", re.DOTALL)


def blanked(text, beginning=""):
    """A source with blanks in the place of comments, strings and characters, so that what is left are words and braces;
    or only in the place of those that begin with this text."""
    blank = lambda match: re.sub(r"[^\n]", " ", match[0]) if match[0].startswith(beginning) else match[0]
    return UNREAD.sub(blank, text)


def closing(text, at):
    """The place of the bracket that closes the one at this place."""
    pairs = {"{": "}", "(": ")", "[": "]"}
    depth, opens, closes = 0, text[at], pairs[text[at]]
    for match in re.compile(r"[" + re.escape(opens + closes) + r"]").finditer(text, at):
        depth += 1 if match[0] == opens else -1
        if depth == 0:
            return match.start()
    raise ValueError(f"nothing closes a {opens}")


# What stands before the braces of a clause.
CLAUSE = re.compile(r"(?:\b(?:requires|ensures)\*?(?:\s+\w+)?|\bghost\s+\w+\s*[:=])\s*\Z")


def body_of(text, at):
    """The places of the braces of a function's body, whose signature goes on at this place, or None where it has none."""
    start = at
    while at < len(text):
        if text[at] in "([":
            at = closing(text, at)
        elif text[at] == ";":
            return None
        elif text[at] == "{":
            end = closing(text, at)
            if not CLAUSE.search(text, start, at):
                return at, end
            at = start = end
        at += 1
    return None


# A function with a body: its name, that of its impl or trait and of its trait's arguments, the head of that, and its
# places: where its attributes begin, where its words do, and the braces of its body.
Function = collections.namedtuple("Function", "name owner arguments head begins start opens closes")


@functools.cache
def functions_of(text):
    """The functions with a body of a source."""
    text = blanked(text)
    owners = []
    for match in re.finditer(r"^(?:pub(?:\([a-z]+\))? )?(?:unsafe )?(impl|trait)\b([^{;]*)\{", text, re.MULTILINE):
        owners.append(((*owner_of(match[1], match[2]), match[0].rstrip("{")), match.start(), closing(text, match.end() - 1)))
    functions = []
    for match in re.finditer(r"\bfn (\w+)", text):
        body = body_of(text, match.end())
        # One that stands in another's body is that one's.
        if body and not (functions and match.start() < functions[-1].closes):
            owner = next((owner for owner, start, end in owners if start < match.start() < end), ("", "", ""))
            begins = max(text.rfind(end, 0, match.start()) for end in ";{}") + 1
            functions.append(Function(match[1], *owner, begins, match.start(), *body))
    return functions


def owner_of(word, head):
    """How the prover names an impl or a trait by its head: as `Type` or `TypeTrait`, and the names of the trait's arguments
    but those of the impl's own parameters."""
    head = re.sub(r"\bwhere\b.*", "", head, flags=re.DOTALL).strip()
    if word == "trait":
        return re.match(r"\w+", head)[0], ""
    own = set()
    if head.startswith("<"):
        own, head = set(re.findall(r"\w+", head[: angle(head, 0)])), head[angle(head, 0) + 1 :]
    trait, _, implementor = head.rpartition(" for ")
    arguments = split(trait[trait.index("<") + 1 : trait.rindex(">")]) if "<" in trait else []
    own_name = camel_name(implementor or head)
    # An argument that is the type itself is told as little as one of the impl's parameters.
    camel = "".join(name for each in arguments if each not in own and (name := camel_name(each)) != own_name)
    return own_name + (last_name(trait) if trait else ""), camel


def split(types):
    """The types of a list of them."""
    found, depth = [""], 0
    for at, letter in enumerate(types):
        depth += (letter in "<([") - (letter in ")]" or letter == ">" and types[at - 1] != "-")
        if letter == "," and depth == 0:
            found.append("")
        else:
            found[-1] += letter
    return [each.strip() for each in found if each.strip()]


def parts_of_head(head):
    """The trait and the type of an impl by its head, without their arguments; of an impl of no trait, and of a trait, no trait."""
    head = re.sub(r"\bwhere\b.*", "", head, flags=re.DOTALL)
    word, head = re.match(r"\s*(?:pub(?:\([a-z]+\))? )?(?:unsafe )?(impl|trait)\s*(.*)", head, re.DOTALL).groups()
    if word == "impl" and head.startswith("<"):
        head = head[angle(head, 0) + 1 :]
    trait, _, implementor = head.rpartition(" for ") if word == "impl" else ("", "", head)
    return last_name(trait), camel_name(re.sub(r"&(?:'\w+ )?(?:mut )?", "", implementor))


def camel_name(type_name):
    """How the prover writes a type in the name of an impl: `u32` as `U32`, `&[T]` as `Ref`, `&BitVec<A>` as `RefBitVec`, `()` as
    `Unit`, `(K, V)` as `Tuple2`."""
    plain = re.sub(r"&(?:'\w+ )?(?:mut )?", "", type_name).strip()
    parts = split(plain[1:-1]) if plain.startswith("(") else None
    name = last_name(plain) if parts is None else f"Tuple{len(parts)}" if parts else "Unit"
    return ("Ref" if type_name.strip().startswith("&") else "") + name[:1].upper() + name[1:]


def angle(text, at):
    """The place of the angle bracket that closes the one at this place."""
    depth = 0
    for i in range(at, len(text)):
        depth += (text[i] == "<") - (text[i] == ">" and text[i - 1] != "-")
        if depth == 0:
            return i
    raise ValueError("nothing closes a <")


def last_name(path):
    """The last name of a path, whose arguments are left out."""
    return (re.findall(r"\w+", path.partition("<")[0]) or [""])[-1]


def names_of(function, module, names):
    """Which of the prover's names are this function's: one, or several where the impl's arguments tell too little."""
    if not function.owner:
        return {"::".join([*module, function.name])} & names
    for owner in (function.owner + function.arguments, function.owner, function.owner + r"\w+"):
        found = {name for name in names if re.search(rf"(?:^|::){owner}::{function.name}\Z", name)}
        inside = {name for name in found if name.startswith("::".join(module))}
        if found:
            return inside or found
    return set()


# Items: what of a source can be named, and what is imported.


class Item:
    """An item of a source: the names by which others reach it, and its text without comments and without the bodies of
    functions. A function with a name of its own is a call's contract; all others are definitions."""

    __slots__ = ("names", "kind", "is_public", "text", "words", "file", "trait", "sum", "is_lemma")

    def __init__(self, names, kind, is_public, text, file, trait=""):
        # Of an impl, the name of its trait.
        self.trait = trait
        self.names, self.kind, self.is_public, self.file = names, kind, is_public, file
        self.text = text if file.is_proof else " ".join(text.split())
        self.words = words_of(text)
        self.sum = hashlib.sha256(self.text.encode()).hexdigest()
        self.is_lemma = file.is_proof and file.path.startswith("proofs/")


def words_of(text):
    """The words of a text: those of code, and those of clauses and proofs."""
    return {*re.findall(r"\w+", text), *re.findall(r"[^\s(){}\[\],;.]+", text)}


class Source:
    """The items of a file, and its imports: of code, and of definitions and lemmas, by the names that they have here."""

    def __init__(self, crate, path, text):
        self.crate, self.path, self.is_proof = crate, path, path.endswith(".antt")
        self.items, self.uses, self.ghost_uses, self.handed_on = [], {}, {}, {}
        (self.read_proof if self.is_proof else self.read_code)(text)
        self.own = {}
        for item in self.items:
            for name in item.names:
                self.own.setdefault(name, []).append(item)

    # Files of specs/ and proofs/.

    def read_proof(self, text):
        self.source = text = re.sub(r"(?m)(?:^|(?<=\s))--.*$", "", text)
        for match in re.finditer(r"(?m)^(?:unfoldable )?(pub )?use\s+((?:[^\n]|\n[ \t}])+)", text):
            for name, path in leaves(match[2], "."):
                self.ghost_uses[name] = path
                if match[1]:
                    self.handed_on[name] = path
        text = re.sub(r"(?m)^(?:unfoldable )?(?:pub )?(?:use\s(?:[^\n]|\n[ \t}])+|mod\s[^\n]*)", "", text)
        found = []
        for part in re.findall(r"(?m)^\S[^\n]*(?:\n(?:[ \t}][^\n]*)?)*", text):
            # A declaration; what stands behind one without being another is its equations.
            head = re.match(r"(?:(?:pub|abbrev|opaque|unfoldable|data|record|module|infix[lr]?)\s+)+([^\s:(){},]+)|([^\s:(){},]+)\s*(?:\{[^}]*\}\s*)*:\s", part)
            if head or not found:
                found.append([(head[1] or head[2]) if head else "", part])
            else:
                found[-1][1] += part
        for name, part in found:
            if re.match(r"(?:pub )?module\b", part):
                self.add_module(part)
            else:
                self.add_declaration(name, part)

    def add_module(self, part):
        """Adds the declarations of a module with parameters, each with the head of that."""
        head, _, inner = part.partition("\n")
        while inner and not re.search(r"\bwhere\s*$", head):
            line, _, inner = inner.partition("\n")
            head += f"\n{line}"
        lines = [line for line in inner.splitlines() if line.strip()]
        margin = min((len(line) - len(line.lstrip()) for line in lines), default=0)
        declarations = []
        for line in lines:
            declared = re.match(rf"[ ]{{{margin}}}(?:(?:pub|abbrev|opaque|unfoldable|data|record)\s+)*([^\s:(){{}},]+)(?:\s*[({{:]|\s*$)", line)
            is_signature = declared and (re.match(rf"[ ]{{{margin}}}(?:pub|abbrev|opaque|unfoldable|data|record)\b", line) or re.match(rf"[ ]{{{margin}}}\S+\s*(?:\{{[^}}]*\}}\s*)*:\s", line))
            if is_signature or not declarations:
                declarations.append([declared[1] if declared else "", head])
            declarations[-1][1] += f"\n{line}"
        for name, text in declarations:
            self.add_declaration(name, text)

    def add_declaration(self, name, part):
        """Adds a declaration. Constructors, fields and what a record declares lead to it."""
        inside = re.findall(r"(?m)^[ \t]+(?:(?:pub|abbrev)\s+)*([^\s:(){},]+) :", part) if re.search(r"(?m)^[ \t]*(?:pub )?(?:data|record)\b", part) else []
        names = {name, *inside}
        parts = {each for name in names for each in name.split("◌") if each}
        lines = [line.rstrip() for line in part.splitlines() if line.strip()]
        self.items.append(Item(names | parts, "definition", True, "\n".join(lines), self))

    # Files of src/.

    def read_code(self, text):
        self.words, self.source = blanked(text), blanked(text, "/")
        self.holes = [(function.opens + 1, function.closes) for function in functions_of(text)]
        self.read_items(0, len(text), "")
        for match in re.finditer(r"\bghost use\s+([^;]+);", self.source):
            self.ghost_uses.update(leaves(match[1], "."))

    def read_items(self, start, end, head):
        """Reads the items between two places, in an impl that has this head or in none."""
        at = begins = start
        while at < end:
            if self.words[at].isspace() or self.words[at] in ";}":
                at += 1
                begins = at if self.source[begins:at].isspace() or self.words[at - 1] in ";}" else begins
                continue
            if self.words[at] == "#":
                bracket = self.words.index("[", at)
                closes = closing(self.words, bracket) + 1
                if self.words[at + 1] == "!":
                    self.items.append(Item({"#!["}, "definition", False, self.source[at:closes], self))
                    begins = closes
                at = closes
                continue
            at = begins = self.read_item(begins, at, head)

    def read_item(self, begins, at, head):
        """Reads the item whose attributes begin at one place and whose words begin at another one, and answers where it ends."""
        function = re.compile(r"(?:pub(?:\([^)]*\))?\s+)?(?:(?:unsafe|const|async|default|extern)\s+)*fn (\w+)").match(self.words, at)
        if function:
            body = body_of(self.words, function.end())
            ends = body[1] + 1 if body else end_of_item(self.words, function.end())
            self.add({function[1]}, "fn", begins, at, ends, head)
            return ends
        known = re.compile(r"(?:pub(?:\([^)]*\))?\s+)?(?:unsafe\s+)?(ghost use|[a-z_]+!?)\s*([^;{]*)").match(self.words, at)
        ends = end_of_item(self.words, at)
        word, rest = (known[1], known[2]) if known else ("", "")
        if word == "use":
            tree = self.source[known.start(2) : ends].rstrip(";")
            for name, path in leaves(tree, "::"):
                self.uses[name] = path
        elif word == "mod" and self.words[ends - 1] == "}":
            self.read_items(self.words.index("{", at) + 1, ends - 1, "")
        elif word == "impl" and " for " not in without_arguments(rest):
            opens = self.words.index("{", at)
            self.read_items(opens + 1, ends - 1, self.source[at:opens])
        elif word == "impl":
            kind, _, of = without_arguments(rest).partition(" for ")
            trait, of = last_name(kind.strip()), last_name(re.sub(r"[&*]|'\w+|\b(?:mut|dyn|const)\b", " ", of).strip())
            self.add({trait, of}, "impl", begins, at, ends, head, trait)
        elif word == "trait":
            methods = re.findall(r"\bfn (\w+)", self.words[at:ends])
            self.add({last_name(rest), *methods}, "trait", begins, at, ends, head)
        elif word not in ("mod", "ghost use"):
            self.add({last_name(rest)}, word, begins, at, ends, head)
        return ends

    def add(self, names, kind, begins, at, ends, head, trait=""):
        """Adds an item, whose text has no bodies of functions."""
        kept, place = [head], begins
        for start, end in self.holes:
            if begins <= start and end < ends:
                kept.append(self.source[place:start])
                place = end
        is_public = self.words.startswith("pub ", at) or kind == "impl"
        self.items.append(Item(names, kind, is_public, " ".join([*kept, self.source[place:ends]]), self, trait))


def end_of_item(text, at):
    """The place behind an item that has no body of a function of its own, whose head goes on at this place."""
    while at < len(text) and text[at] != ";":
        if text[at] in "{([":
            closes = closing(text, at)
            if text[at] == "{" and not text[closes + 1 :].lstrip()[:1] == ";" and not re.search(r"[=:]\s*\Z", text[max(at - 9, 0) : at]):
                if not CLAUSE.search(text, max(at - 60, 0), at):
                    return closes + 1
            at = closes
        at += 1
    return at + 1


def without_arguments(head):
    """The head of an impl without what stands in angle brackets."""
    kept, depth = [], 0
    for at, letter in enumerate(head):
        depth += letter == "<"
        kept.append("" if depth else letter)
        depth -= letter == ">" and head[at - 1] != "-"
    return re.sub(r"\bwhere\b.*", "", "".join(kept), flags=re.DOTALL)


def leaves(tree, between):
    """What an import names, and the path of each."""
    tree = " ".join(tree.split())
    if "{" not in tree:
        path, _, name = tree.partition(" as ")
        last = path.rpartition(between)[2]
        if last == "self":
            path = path.removesuffix(between + "self")
            last = path.rpartition(between)[2]
        return [(name.strip() or last.strip(), path.strip())]
    front, _, inner = tree.partition("{")
    found, depth, start = [], 0, 0
    inner = inner[: inner.rindex("}")] + ","
    for at, letter in enumerate(inner):
        depth += (letter == "{") - (letter == "}")
        if letter == "," and depth == 0:
            if part := inner[start:at].strip():
                found += leaves(front + part, between)
            start = at + 1
    return found

"""Which mutants are tried, compared with a base that nobody can steer. Read by tests/mutants.py.

That a mutant breaks its clause is a fact of its text, of its function with its contract, and of the definitions, types and
contracts to which these lead by name. No lemma and no proof can make a false clause true. So these are affected by a change:

- those that are new, and those whose own text or function changed;
- of each definition, type and contract that changed, so many that lead to it by the fewest steps (COVER), few and of few
  crates.

Beside these a rota samples all of them in turn."""

import collections
import contextlib
import functools
import hashlib
import pathlib
import re
import subprocess
import tempfile

import mutant_files
import mutant_sources

# How many commits back the base of the main branch is. A landing has fewer.
BACK = 60
# Where a repository has its main branch.
MAIN = ("origin/main", "origin/master", "main", "master")
# How many mutants are tried of each definition, type and contract that changed.
COVER = 3
# In how many commits the rota samples each mutant once.
ROUND = 1600
# What a check costs by itself, and a mutant in it, in seconds: by these few crates are better than many.
CHECK, EACH = 12, 3
# Where mutants stand, and where they stood in earlier commits.
FOLDERS = (mutant_files.FOLDER, "wrong", "must-fail")
MUTANT = re.compile(rf"crates/(\w+)/(?:{'|'.join(FOLDERS)})/(\w+)[.]edit")


# What a refusal rests on.


class Tree:
    """The crates of a repository, as they lie in a folder."""

    def __init__(self, root):
        self.root, self.uses = pathlib.Path(root), mutant_files.libraries(root)
        self.below = {crate: mutant_files.below(crate, self.uses) for crate in self.uses}
        self.reach = {}

    @functools.cache
    def sources(self, crate):
        """The sources of a crate, by their paths in it."""
        folder = self.root / "crates" / crate
        paths = [path for part in mutant_files.PARTS for path in sorted((folder / part).rglob("*")) if path.suffix in (".rt", ".antt")]
        names = [str(path.relative_to(folder)) for path in paths]
        return {name: mutant_sources.Source(crate, name, path.read_text(encoding="utf-8")) for name, path in zip(names, paths)}

    @functools.cache
    def code(self, crate):
        """The items of a crate's src, by the names that reach them."""
        found = collections.defaultdict(list)
        for source in self.sources(crate).values():
            for item in source.items if not source.is_proof else ():
                for name in item.names:
                    found[name].append(item)
        return found

    @functools.cache
    def traits(self):
        return {name for crate in self.uses for name, items in self.code(crate).items() if any(item.kind == "trait" for item in items)}

    @functools.cache
    def named(self, crate, word):
        """The items of code that a word of a crate may name: its own, and of the libraries below it those that are public."""
        found = list(self.code(crate).get(word, ()))
        for library in self.below[crate]:
            found += [item for item in self.code(library).get(word, ()) if item.is_public or item.kind != "fn"]
        return [item for item in found if word != item.trait or word in self.traits()]

    @functools.cache
    def defined(self, path):
        """The items that a path of a definition, a lemma or a contract leads to; none where it is the kit's."""
        parts = path.split(".")
        if parts[0] != "Rattle" or len(parts) < 3 or parts[1] not in self.uses:
            return []
        crate, sources = parts[1], self.sources(parts[1])
        for cut in (len(parts) - 1, len(parts)):
            source = sources.get("/".join(parts[2:cut]) + ".antt")
            if source and cut == len(parts):
                return source.items
            if source and parts[-1] in source.own:
                return source.own[parts[-1]]
            if source and parts[-1] in source.handed_on:
                return self.defined(source.handed_on[parts[-1]])
        root = sources.get(f"{parts[2]}/Lib.antt")
        if root and len(parts) > 3 and parts[3] in root.handed_on:
            return self.defined(".".join([root.handed_on[parts[3]], *parts[4:]]))
        # What the prover makes of a function, a type or a module.
        found = [item for part in parts[3:] for item in self.code(crate).get(part, ())]
        # Where that can't be told, all that the crate states.
        return found or [item for name, source in sources.items() if name.startswith("specs/") for item in source.items]

    def leads_to(self, words, source, calls):
        """The items to which words of a source lead. Calls lead to contracts where they are those of a body."""
        found = set()
        for word in words:
            if word in source.ghost_uses:
                items = self.defined(source.ghost_uses[word])
                # Of a module those that are named with it.
                found.update([item for item in items if item.names & words] or items)
            elif source.is_proof:
                found.update(source.own.get(word, ()))
            if source.is_proof:
                continue
            if word in source.uses:
                word = source.uses[word].rpartition("::")[2]
            found.update(item for item in self.named(source.crate, word) if calls or item.kind != "fn")
        return {item for item in found if not item.is_lemma}

    def behind(self, item):
        """The items to which an item leads by itself."""
        if item not in self.reach:
            self.reach[item] = {it for it in self.leads_to(item.words, item.file, calls=item.kind == "const") if it is not item}
        return self.reach[item]

    def rests_on(self, mutant):
        """The sum of a mutant and its functions, and those of the definitions, types and contracts to which these lead, each with
        by how many steps."""
        own = [mutant.wanted, *(text for hunk in mutant.hunks for text in hunk)]
        found, left, steps = {}, set(), 0
        for path in sorted({path for path, _, _ in mutant.hunks if path.endswith(".antt")}):
            source = self.sources(mutant.crate)[path]
            own.append(" ".join(source.source.split()))
            left |= self.leads_to(mutant_sources.words_of(source.source), source, calls=True)
        for path, function in sorted(mutant.places):
            source = self.sources(mutant.crate)[path]
            text = f"{function.head} {source.source[function.begins : function.closes + 1]}"
            own.append(" ".join(text.split()))
            new = " ".join(new for at, _, new in mutant.hunks if at == path)
            left |= self.leads_to(mutant_sources.words_of(f"{text} {new}"), source, calls=True)
        while left:
            steps += 1
            found |= dict.fromkeys(left, steps)
            left = set().union(*map(self.behind, left)) - found.keys()
        return digest("\0".join(own)), {item.sum: steps for item, steps in reversed(found.items())}


def digest(text):
    return hashlib.sha256(text.encode()).hexdigest()


# What is affected.


def affected(mutants, tree, base):
    """Those of the tree's mutants that are affected by what changed since a base, each with why."""
    earlier = {mutant.name: mutant for mutant in mutant_files.all_mutants(base.root, FOLDERS) if not mutant.fault}
    chosen, reached = {}, {}
    for mutant in mutants:
        if mutant.fault or mutant.name not in earlier:
            chosen[mutant] = "it is new" if not mutant.fault else mutant.fault
            continue
        (own, items), (before, items_before) = tree.rests_on(mutant), base.rests_on(earlier[mutant.name])
        if own != before:
            chosen[mutant] = "its own text or function changed"
        reached[mutant] = {item: (items | items_before)[item] for item in items.keys() ^ items_before.keys()}
    cover = covering(reached, chosen)
    return chosen | {mutant: "a definition, type or contract that it rests on changed" for mutant in cover}


def covering(reached, chosen):
    """Mutants that lead with those that are chosen to each changed item COVER times, by as few steps as any do: few, and of
    few crates. What is reached has the steps of each item."""
    steps = collections.defaultdict(list)
    for items in reached.values():
        for item, count in items.items():
            steps[item].append(count)
    farthest = {item: sorted(counts)[:COVER][-1] for item, counts in steps.items()}
    near = {mutant: {item for item, count in items.items() if count <= farthest[item]} for mutant, items in reached.items()}
    left = collections.Counter(dict.fromkeys(farthest, COVER))
    left.subtract(item for mutant in chosen for item in near.get(mutant, ()))
    crates = {mutant.crate for mutant in chosen}
    open_to = {mutant: near[mutant] for mutant in sorted(near, key=lambda it: it.name) if mutant not in chosen}
    found = []

    def worth(mutant):
        gain = sum(left[item] > 0 for item in open_to[mutant])
        return gain / (EACH if mutant.crate in crates else EACH + CHECK)

    while open_to and worth(best := max(open_to, key=worth)):
        left.subtract(open_to.pop(best))
        crates.add(best.crate)
        found.append(best)
    return found


# What is sampled.


def sampled(mutants, root, commit):
    """The mutants that a rota tries for the commits behind this one. Those that stood at the commit with which a round began
    stand in it, crate by crate, in an order that this commit gives; each later commit goes on by its part of the round. Those
    that came later were tried as new ones."""
    first, last = (int(git(root, "rev-list", "--count", "--first-parent", each) or 0) for each in (commit, "HEAD"))
    found = set()
    for begin in {number - number % ROUND for number in range(first + 1, last + 1)}:
        seed = git(root, "rev-list", "--first-parent", f"--skip={last - max(begin, 1)}", "-1", "HEAD")
        order = sorted(names_at(root, seed), key=lambda name: (digest(f"{seed} {name[0]}"), digest(f"{seed} {name[1]}")))
        passed = {number - begin for number in range(max(begin, first + 1), min(begin + ROUND, last + 1))}
        found |= {"/".join(name) for place, name in enumerate(order) if place * ROUND // len(order) in passed}
    return {mutant for mutant in mutants if mutant.name in found}


def names_at(root, commit):
    """The mutants that a commit has, each as its crate and the name of its file."""
    listed = git(root, "ls-tree", "-r", "--name-only", commit, "crates") or ""
    return {(match[1], match[2]) for match in map(MUTANT.fullmatch, listed.splitlines()) if match}


# The base.


def git(root, *words):
    """What git says in a folder, or None where it can't tell."""
    try:
        ran = subprocess.run(["git", "-C", str(root), *words], stdout=subprocess.PIPE, stderr=subprocess.DEVNULL, text=True)
    except OSError:
        return None
    return ran.stdout.strip() if ran.returncode == 0 else None


def base_of(root):
    """The commit with which a tree is compared, and why that; None where there is none. Of a branch it is the commit where it
    left the main branch, and of the main branch itself one that stands some commits back."""
    head, top = git(root, "rev-parse", "HEAD"), git(root, "rev-parse", "--show-toplevel")
    if head is None or top is None or pathlib.Path(top).resolve() != pathlib.Path(root).resolve():
        return None, "there is no history"
    for name in MAIN:
        if git(root, "rev-parse", "--verify", "--quiet", f"{name}^{{commit}}") is None:
            continue
        left = git(root, "merge-base", "HEAD", name)
        if left is None:
            return None, f"it has no commit in common with {name}"
        if left != head:
            return left, f"where this branch left {name}"
    back = git(root, "rev-parse", "--verify", "--quiet", f"HEAD~{BACK}")
    return back, f"{BACK} commits before HEAD" if back else f"there is no commit {BACK} before HEAD"


@contextlib.contextmanager
def files_of(root, commit):
    """A folder with the files of a commit."""
    with tempfile.TemporaryDirectory(prefix="giputils-base-") as folder:
        with subprocess.Popen(["git", "-C", str(root), "archive", commit], stdout=subprocess.PIPE) as archive:
            subprocess.run(["tar", "-x", "-C", folder], stdin=archive.stdout, check=True)
        if archive.returncode:
            raise OSError(f"git archive {commit} failed")
        yield pathlib.Path(folder)


def is_of_another_kit(base, version):
    """Whether the README of a base names another logic than the kit that is there, by what `rt version` says of it."""
    logic = version.partition("logic ")[2].split()
    file = pathlib.Path(base, "README.md")
    return not logic or not file.is_file() or logic[0] not in file.read_text(encoding="utf-8")


# Those that went.


def gone(root, commit):
    """The mutants that a commit behind a base took out and that did not come back, where neither its message nor a later one
    says why: by a line 'NAME: TEXT', with the name of its file."""
    commits = (git(root, "rev-list", "--first-parent", "--reverse", f"{commit}..HEAD") or "").split()
    went, told = {}, told_by_lists(root, commits)
    for number, each in enumerate(commits):
        # One that came back, or that another crate took over, is not gone.
        came = {stem for _, stem in names_at(root, each) - names_at(root, f"{each}~")}
        went = {name: when for name, when in went.items() if name[1] not in came}
        went |= {name: number for name in names_at(root, f"{each}~") - names_at(root, each) if name[1] not in came}
    message = functools.cache(lambda each: git(root, "log", "-1", "--format=%B", each) or "")
    says = lambda name, since: any(re.search(rf"(?m)^\s*{name}: \S", message(each)) for each in commits[since:])
    return sorted("/".join(name) for name, when in went.items() if name[1] not in told and not says(name[1], when))


def told_by_lists(root, commits):
    """The names that have a reason in the lists of names that earlier commits had (crates/NAME/wrong/LIST). Where none of the
    commits behind a base has such a list, this goes, and so do the earlier names of the folder."""
    found = set()
    for commit in commits:
        for line in (git(root, "grep", "-hF", ":", commit, "--", "crates/*/wrong/LIST") or "").splitlines():
            found.add(line.rpartition("LIST:")[2].partition(":")[0].strip())
    return found

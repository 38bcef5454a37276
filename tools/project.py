"""What the tools that read the sources share: the crates and their families, the definitions of specs/, and pages that are made of them."""
import collections
import os
import re
import sys

from common import ROOT

Crate = collections.namedtuple("Crate", "name uses family static")


def read(path):
    with open(os.path.join(ROOT, path), encoding="utf-8") as file:
        return file.read()


def exists(path):
    return os.path.exists(os.path.join(ROOT, path))


def store(path, text, check):
    """Writes a page that is made of the sources; with `check` it must be what is stored."""
    if not check:
        with open(os.path.join(ROOT, path), "w", encoding="utf-8") as file:
            file.write(text)
    elif not exists(path) or read(path) != text:
        sys.exit(f"{path} is not what the sources say: run tools/{os.path.basename(sys.argv[0])}")


def between(page, begin, end, text):
    """A page with other text between two marked lines, each of which stands in it once."""
    if page.count(begin) != 1 or page.count(end) != 1:
        sys.exit(f"the lines {begin} and {end} do not stand once each in the page")
    before, rest = page.split(begin)
    return f"{before}{begin}\n{text.strip()}\n{end}{rest.split(end)[1]}"


# ---- crates and families

def families():
    """The families in reading order, each with what it is."""
    return dict(re.findall(r"^#   (\w+) +(.*)$", read("crates.txt"), re.MULTILINE))


def crates():
    """The crates as crates.txt has them, each with what it uses, its family, and whether it is a static library."""
    return [Crate(name, uses.split(), family, bool(static)) for name, static, uses, family in re.findall(r"^(\w+)( staticlib)?:(.*)# (\w+)$", read("crates.txt"), re.MULTILINE)]


def is_program(crate):
    return exists(f"crates/{crate}/src/main.rt")


def purpose(crate):
    """The first sentence of a crate's source: what the crate is for."""
    said = []
    for line in read(f"crates/{crate}/src/{'main' if is_program(crate) else 'lib'}.rt").splitlines():
        if not line.startswith("// "):
            break
        said.append(line[3:])
    # the papers that it cites are left out
    text = re.sub(r" \((?:document|docs/|RFC|wish|Wish)[^()]*\)", "", " ".join(said))
    return re.split(r"(?<=[a-z0-9)\"])\. |\.$", text)[0]


# ---- definitions

WORD = re.compile(r"[^\W\d_][\w']*(?:-[\w']+)*")
HEAD = re.compile(r"^(?:abbrev |unfoldable )?(?:pub )?(?:record |data )?([^\W\d_][\w']*(?:-[\w']+)*).*?(?: :|$)")
IMPORT = re.compile(r"^(?:pub |ghost )?use Rattle\.(\w+)\.specs\.(\w+)\.\{([^}]*)\}", re.MULTILINE)


def imports(text):
    """The names that a file takes from specs/: which crate, module and name each is."""
    return {name.strip(): (crate, module, name.strip()) for crate, module, names in IMPORT.findall(text) for name in names.split(",")}


def words(text):
    return set(WORD.findall(re.sub(r"--.*", "", text)))


class Definitions:
    """Every definition of specs/ by crate, module and name, with its text, the comment above it, and what it cites."""

    def __init__(self):
        self.text, self.above, self.scope, self.modules = {}, {}, {}, {}
        self.known = {}
        for crate in crates():
            folder = os.path.join(ROOT, "crates", crate.name, "specs")
            for file in sorted(os.listdir(folder)) if os.path.isdir(folder) else []:
                self.take(crate.name, file[:-5], read(f"crates/{crate.name}/specs/{file}"))

    def take(self, crate, module, text):
        self.scope[crate, module] = imports(text)
        self.modules.setdefault(crate, []).append(module)
        name, above = None, []
        for line in text.split("\n"):
            if line.startswith("--"):
                above.append(line)
                name = None
                continue
            if not line:
                above = []
                continue
            if line.startswith(("use ", "pub mod ", "pub use ")):
                continue
            found = HEAD.match(line)
            if found and re.match(r"(abbrev|unfoldable|pub|record|data)\b", line):
                name = (crate, module, found.group(1))
                self.text[name] = ""
                self.above[name] = above
                self.known[name] = name
                above = []
            elif name is None and not line.startswith(" ") and found and (crate, module, found.group(1)) in self.text:
                name = (crate, module, found.group(1))
            if name:
                self.text[name] += line + "\n"
                part = re.match(r"  (?:pub )?([^\W\d_][\w']*(?:-[\w']+)*) :", line)
                if part:
                    self.known.setdefault((crate, module, part.group(1)), name)

    def find(self, word, scope, crate="", module=""):
        return self.known.get(scope.get(word) or (crate, module, word))

    def named(self, crate, name):
        """The one definition of that name in a crate."""
        found = [key for key in self.text if key[0] == crate and key[2] == name]
        if len(found) != 1:
            sys.exit(f"the crate {crate} defines {name} {len(found)} times in specs/")
        return found[0]

    def close(self, roots):
        """The definitions that the roots rest on, the roots among them."""
        seen, todo = set(), [root for root in roots if root]
        while todo:
            name = todo.pop()
            if name in seen:
                continue
            seen.add(name)
            for word in words(self.text[name]):
                target = self.find(word, self.scope[name[0], name[1]], name[0], name[1])
                if target and target not in seen:
                    todo.append(target)
        return seen

    def lines(self, names):
        return sum(len([line for line in self.text[name].split("\n") if line.strip()]) for name in names)


# a head without a contract ends in its own line's brace, one with a contract in the brace below it, one of a trait in a semicolon
FUNCTION = re.compile(r"^( *)(pub )?(?:extern \"C\" )?fn (\w+)(?:(?:(?!requires|ensures|;$)[^{])*\{$|(?:(?!requires|ensures|;$)[^{])*;$|.*?(?:^\1\{|\};$))", re.MULTILINE | re.DOTALL)


def heads():
    """Each function of the sources: its crate, its name, whether it is public, its head with the contract, and what its file takes from specs/."""
    for crate in crates():
        folder = os.path.join(ROOT, "crates", crate.name, "src")
        for file in sorted(os.listdir(folder)):
            if file.endswith(".rt"):
                text = read(f"crates/{crate.name}/src/{file}")
                scope = imports(text)
                for found in FUNCTION.finditer(text):
                    yield crate.name, found.group(3), bool(found.group(2)), found.group(0), scope


# ---- traits

# a trait of a crate, or an impl of a trait: `kind` is the type, and nothing for the trait itself; `trait` has its type parameters; `laws` has the text
# of each ghost member; `own` has the names of both that the crate declares
Block = collections.namedtuple("Block", "crate path trait kind public laws body said own scope")
TRAIT = re.compile(r"^((?:(?://|#\[)[^\n]*\n)*)(?:(pub )?trait (\w+)[^{\n]*|impl(?:<[^\n]*?>)? ([\w:]+(?:<[^\n]*?>)?) for ([^\n]+?) )\{\n(.*?)^\}", re.MULTILINE | re.DOTALL)
LAW = re.compile(r"^    ghost (\w+)(?: =|:) \{\s*(.*?)\s*\};", re.MULTILINE | re.DOTALL)
DECLARED = re.compile(r"^pub (?:struct|enum|trait|type) (\w+)", re.MULTILINE)


def traits():
    """Each trait of the sources and each impl of one; what `derive` writes is none."""
    for crate in crates():
        folder = f"crates/{crate.name}/src"
        paths = [f"{folder}/{file}" for file in sorted(os.listdir(os.path.join(ROOT, folder))) if file.endswith(".rt")]
        declared = {name for path in paths for name in DECLARED.findall(read(path))}
        for path in paths:
            text = read(path)
            for above, public, name, trait, kind, body in TRAIT.findall(text):
                said = " ".join(line[2:].strip() for line in above.splitlines() if line.startswith("//"))
                laws = {law: " ".join(words.split()) for law, words in LAW.findall(body)}
                own = declared & set(re.findall(r"\w+", f"{name} {trait} {kind}"))
                yield Block(crate.name, path, name or trait, kind, bool(public), laws, body, said, own, imports(text))

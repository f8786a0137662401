"""The declarations of a crate's definitions and laws, and which of them each rests on, by the names in their texts.

A name is looked up in the `use` lines of its file and among the file's own declarations; what a file passes on by `pub use` is
looked up where it is declared. A local name that is spelled like a
declaration counts as that one, so a declaration never rests on more than is said here. A contract in the code is such a text
too, with the `ghost use` lines of its file."""
import collections
import re

WORDS = re.compile(r"[\s(){}\[\],;.]+")
MARKS = r"(?:(?:abbrev|unfoldable|opaque|pub) )*"
TYPE = re.compile(r"\s*" + MARKS + r"(?:record|data) (\S+)")
SEEN_INSIDE = re.compile(MARKS + r"(?:record|data|module) ")
SIGNATURE = re.compile(r"\s*" + MARKS + r"((?:[^\s:=(){}]+ )*[^\s:=(){}]+)(?: \{[^}]*\})* :")
USE = re.compile(r"^((?:pub |ghost )?)use Rattle\.(\w+)\.(specs|proofs)\.(\w+)(?:\.\{([^}]*)\}| as ([^\s;]+))?;?$", re.M)
NO_NAMES = {"let", "in", "where", "module", "record", "data"}


def spelled(name):
    """A name as it is written where it is used; for an operator, each of its parts."""
    return [part for part in name.split("◌") if part]


def names_at(line):
    """The names that a line declares."""
    found = TYPE.match(line) or SIGNATURE.match(line)
    return set(found.group(1).split()) - NO_NAMES if found else set()


def blocks(text):
    """The declarations at the left margin of a file, each with its lines, its text and its names as they are spelled; those
    inside a type or a module are its names too."""
    found = []
    for number, line in enumerate(text.splitlines(), 1):
        names, margin = names_at(line), line[:1].strip() and not line.startswith(("--", "use ", "pub use ", "unfolding "))
        goes_on = found and found[-1]["names"] & set(WORDS.split(line.split("=")[0]))
        if margin and (names or SEEN_INSIDE.match(line) or not goes_on):
            found.append({"names": set(), "open": SEEN_INSIDE.match(line), "first": number, "lines": []})
            names = names or {WORDS.split(line)[0]} - NO_NAMES
        if found:
            if margin or found[-1]["open"]:
                found[-1]["names"] |= {part for name in names for part in spelled(name)}
            found[-1]["lines"].append(line.split("--")[0])
            found[-1]["last"] = number
    return found


class Declarations:
    def __init__(self, folder, crate, changed=()):
        """The declarations of the crate of a name, whose files are in a folder, where those that have changed have other texts; fails
        if a `use` line names none of them."""
        self.blocks, self.named, self.cited = {}, {}, {}
        self.used, self.modules = collections.defaultdict(dict), collections.defaultdict(dict)
        texts = {f"{path.parent.name}/{path.name}": path.read_text() for part in ("specs", "proofs") for path in folder.glob(f"{part}/*.antt")}
        texts |= {file: text for file, text in dict(changed).items() if file in texts}
        for file, text in texts.items():
            self.blocks[file], self.named[file] = blocks(text), collections.defaultdict(set)
            for at, block in enumerate(self.blocks[file]):
                for part in block["names"]:
                    self.named[file][part].add(at)
        texts |= {str(path.relative_to(folder)): path.read_text() for path in folder.glob("src/**/*.rt")} | dict(changed)
        uses = [(file, *use) for file, text in texts.items() for use in USE.findall(text)]
        for file, how, owner, part, module, listed, alias in sorted(uses, key=lambda use: use[1] != "pub "):
            if owner == crate:
                self.take(file, f"{part}/{module}.antt", listed, alias or module)

    def take(self, file, source, listed, alias):
        """What a `use` line brings into a file: names, or a module under a name."""
        if not listed:
            self.modules[file][alias] = source
        for item in filter(None, map(str.strip, listed.split(","))):
            name, _, other = item.partition(" as ")
            for part, original in zip(spelled(other.strip() or name), spelled(name)):
                here = (source, original) if original in self.named[source] else self.used[source].get(original)
                if here is None:
                    raise ValueError(f"{file}: no declaration of {name} is found in {source}")
                self.used[file][part] = here

    def at(self, file, line):
        """The declaration at a line of a file, or None."""
        return next(((file, at) for at, b in enumerate(self.blocks.get(file, [])) if b["first"] <= line <= b["last"]), None)

    def holding(self, file, text):
        """The declaration whose text has a part, which is in the file once, or None."""
        return next(((file, at) for at, b in enumerate(self.blocks.get(file, [])) if text in "\n".join(b["lines"])), None)

    def named_in(self, file, text):
        """The declarations that a text of a file names."""
        names = [(self.modules[file].get(module), name) for module, name in re.findall(r"([^\s(){}\[\],;.]+)\.(?=([^\s(){}\[\],;.]+))", text)]
        names += [self.used[file].get(word, (file, word)) for word in WORDS.split(text)]
        return {(source, block) for source, name in names for block in self.named.get(source, {}).get(name, ())}

    def cites(self, key):
        """The declarations that a declaration names, found once."""
        if key not in self.cited:
            self.cited[key] = self.named_in(key[0], "\n".join(self.blocks[key[0]][key[1]]["lines"]))
        return self.cited[key]

    def reached(self, *keys):
        """Declarations and all that they rest on."""
        seen, left = set(keys), list(keys)
        while left:
            new = self.cites(left.pop()) - seen
            seen |= new
            left += new
        return seen

    def rests_on(self, file, text):
        """All that a text of a file rests on."""
        return self.reached(*self.named_in(file, text))

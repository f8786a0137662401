"""The functions of a crate's code: where each is, what its contract says, and where its proof is."""
import collections
import re

FUNCTION = re.compile(r"(\s*)(?:pub(?:\(crate\))? )?(?:extern \"C\" )?fn (\w+)")
CLAUSE = re.compile(r"\s*(?:requires|ensures)\b")
OWNER = re.compile(r"impl(?:<[^>]*>)? (\w+)")
OF_TRAIT = re.compile(r"impl(?:<[^>]*>)? (?:\w+::)*(\w+)(?:<[^>]*>)? for (\w+)")

Function = collections.namedtuple("Function", "name file lines clauses body contract text proofs")


def proof_places(file, owner, name):
    """Where the proof of a function may be; that of a method is below its type, which may be declared in the root, and the folder of
    one that calls itself has a + before its name."""
    module = file.removeprefix("src/").removesuffix(".rt")
    type_folder = f"{owner}/" if owner else ""
    modules = [""] if owner or module in ("lib", "main") else []
    folders = [f"proofs/{folder}{type_folder}{mark}{name}" for folder in (*modules, f"{module}/") for mark in ("", "+")]
    return tuple(f"{folder}/{file}.antt" for folder in folders for file in ("Answers", "Invariants", "Proof"))


def first_line(lines, start):
    """The first line of a function, whose attributes are above it."""
    while start > 0 and lines[start - 1] and not lines[start - 1].endswith(("{", "}", ";")):
        start -= 1
    return start


def parts(lines, start, indent):
    """The line of a function's first clause, and those of the braces around its body."""
    if lines[start].endswith("}"):
        return start, start, start
    closed = next(i for i in range(start, len(lines)) if lines[i] == indent + "}")
    alone = (i for i in range(start, closed) if lines[i] == indent + "{")
    opened = next(alone, None) or next(i for i in range(start, closed) if lines[i].endswith("{"))
    return next((i for i in range(start, opened) if CLAUSE.match(lines[i])), opened), opened, closed


def functions_in(file, text):
    """The functions of a file in the layout of `rt fmt`, their lines counted from 1."""
    lines, owner = [line.split("//")[0].rstrip() for line in text.splitlines()], None
    for start, line in enumerate(lines):
        of_trait = OF_TRAIT.match(line)
        if of_trait:
            owner = of_trait.group(2) + of_trait.group(1)
        else:
            owner = OWNER.match(line).group(1) if OWNER.match(line) else owner
        found = FUNCTION.match(line)
        if found:
            indent, name = found.groups()
            method = owner if indent else None
            clauses, opened, closed = parts(lines, start, indent)
            yield Function(
                f"{method}::{name}" if method else name,
                file,
                range(first_line(lines, start) + 1, closed + 2),
                range(clauses + 1, opened + 1),
                range(opened + 2, closed + 1),
                "\n".join(lines[clauses:opened]),
                "\n".join(lines[start : closed + 1]),
                proof_places(file, method, name),
            )


def functions(folder):
    """The functions of the crate in a folder."""
    paths = sorted(folder.glob("src/**/*.rt"))
    return [function for path in paths for function in functions_in(str(path.relative_to(folder)), path.read_text())]

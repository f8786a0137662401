"""Tries edits: what `rt check` says of a crate with an edit, in copies of the repository outside of it.

What it said is kept on this machine, in the user's cache folder, jmux-must-fail/CRATE/NAME.log, behind a checksum of all that the try
read, and a try of the same is not repeated, also in another clone. A copy begins with what earlier checks on this machine kept, so
most of a try is loading the libraries.

The checker names the places and goals of a function's proof by the words of its conditions, `returns-then-n-lt128` say, so an edit of
a condition takes names away that the proof file has. Such an edit is tried once more with the new names in the proof file, by the
order of the places in the code: then a fact refuses it, if there is one, and not a name."""
import collections
import concurrent.futures
import functools
import hashlib
import json
import os
import pathlib
import queue
import re
import shutil
import subprocess
import tempfile

from crate_list import below, crates

PARTS = ("src", "specs", "proofs")
# A check takes up to about this much memory.
GIGABYTES = 4
# The statuses of a check that came to an end: proved, not proved, and no verdict for a limit of the prover.
ENDED = (0, 1, 3)
NAME_GONE = re.compile(r"^\S*proofs/\S+: error: .*(?:has no field|has no `)", re.M)
TOKEN = re.compile(r"[^\s(){}\[\],;.\"]+")

# A crate, a name for the log, and what is replaced: of each replacement the file, the old text and the new one.
Try = collections.namedtuple("Try", "crate name replaced")


# ---- what is tried


def kept_folder():
    """Where what was said is kept: the user's cache folder, or one for this run where that cannot be written."""
    try:
        folder = pathlib.Path(os.environ.get("XDG_CACHE_HOME") or pathlib.Path.home() / ".cache") / "jmux-must-fail"
        folder.mkdir(parents=True, exist_ok=True)
        with tempfile.TemporaryFile(dir=folder):
            return folder
    except (OSError, RuntimeError):
        return pathlib.Path(tempfile.mkdtemp(prefix="jmux-must-fail-"))


KEPT = kept_folder()


def edited_texts(folder, replaced):
    """The texts of the files of a crate's folder that a try changes, as it leaves them."""
    texts = {}
    for file, old, new in replaced:
        texts[file] = texts.get(file, (folder / file).read_text()).replace(old, new)
    return texts


@functools.lru_cache(maxsize=None)
def checksum(root, name):
    """A checksum of all that a check of a crate reads."""
    made = hashlib.sha256(subprocess.run(["rt", "version"], stdout=subprocess.PIPE, check=True).stdout)
    all_crates = crates(root)
    for crate in below(all_crates, name):
        made.update(f"{crate} {all_crates[crate]}".encode())
        for path in sorted(path for part in PARTS for path in (root / "crates" / crate / part).glob("**/*") if path.is_file()):
            made.update(f"{path.relative_to(root)}\n".encode() + path.read_bytes())
    return made.hexdigest()


class Log:
    """What was said when something was tried last, if all that the try reads is as it was."""

    def __init__(self, root, one):
        self.path = KEPT / one.crate / f"{one.name}.log"
        self.sum = hashlib.sha256(f"{checksum(root, one.crate)} {one}".encode()).hexdigest()

    def said(self):
        sum, _, said = self.path.read_text().partition("\n") if self.path.exists() else ("", "", "")
        return said if sum == self.sum else None

    def keep(self, said):
        self.path.parent.mkdir(parents=True, exist_ok=True)
        self.path.write_text(f"{self.sum}\n{said}")


# ---- a copy of the repository


def copied(root, to):
    """A copy of the repository's crates as they stand, without what was built of them."""
    to.mkdir()
    (to / ".git").mkdir()
    shutil.copy(root / "crates.txt", to)
    for crate in crates(root):
        for part in PARTS:
            if (root / "crates" / crate / part).is_dir():
                shutil.copytree(root / "crates" / crate / part, to / "crates" / crate / part)
    return to


def linked(one, other):
    """Gives a file another name where a check replaces it, and else copies it."""
    return os.link(one, other) if str(one).endswith(".oantt") else shutil.copy2(one, other)


def run(folder, *words):
    return subprocess.run(
        ["rt", *words], cwd=folder, stdin=subprocess.DEVNULL, stdout=subprocess.PIPE, stderr=subprocess.STDOUT, text=True, errors="replace"
    )


def checked(folder):
    """The status of a check of the crate in a folder, and what it said; one that is killed, most likely for memory, is made once more."""
    ran = run(folder, "check", "--jobs", "1")
    ran = ran if ran.returncode in ENDED else run(folder, "check", "--jobs", "1")
    return ran.returncode, ran.stdout


def write(folder, texts):
    for file, text in texts.items():
        (folder / file).write_text(text)


# ---- the names of places and goals


def names_in(folder):
    """The names that the checker makes for the functions of the crate in a folder: by the proof's folder, those of its places, steps,
    fields and goals, by their order in the code."""
    with tempfile.TemporaryDirectory() as to:
        run(folder, "names", f"{to}/made")
        path = pathlib.Path(to, "made/names.json")
        listed = json.loads(path.read_text()) if path.exists() else {}
    found = {}
    for key, one in listed.items():
        function = re.fullmatch(r"Rattle-\w+-proofs\.(.*)\.Lts", key)
        if function:
            names = {("goal", old): new for old, new in one["needs"]} | {("asked", old): new for old, new in one["asked_at"]}
            for (place, _, step, _, fields), name in zip(one["places"], one["places_by_name"]):
                names |= {("place", place): name, ("step", place): step[1]} | {("field", place, old): new for old, new in fields}
            found["proofs/" + function.group(1).replace(".", "/")] = names
    return found


def renamed(folder, before, after):
    """The proof files of the crate in a folder whose names are others after an edit than before it, with the new ones."""
    texts = {}
    for proof, old in before.items():
        new = after.get(proof, {})
        names = {old[key]: new[key] for key in old if old[key] != new.get(key, old[key])}
        for file in (f"{proof}/Answers.antt", f"{proof}/Invariants.antt") if names else ():
            if (folder / file).is_file():
                texts[file] = TOKEN.sub(lambda found: names.get(found.group(), found.group()), (folder / file).read_text())
    return texts


# ---- the tries


def try_all(folder, tries):
    """What a check of the crate in a folder says at each try, one after another, if the crate is proved as it is and the check ends."""
    if checked(folder)[0] != 0:
        return
    kept, seed, before = folder / "out/incremental", folder.parent.parent / "seed", None
    kept.rename(seed)
    for one in tries:
        shutil.copytree(seed, kept, copy_function=linked)
        texts = edited_texts(folder, one.replaced)
        were = {file: (folder / file).read_text() for file in texts}
        before = before or names_in(folder)
        write(folder, texts)
        status, said = checked(folder)
        if status == 1 and NAME_GONE.search(said):
            more = renamed(folder, before, names_in(folder))
            were |= {file: (folder / file).read_text() for file in more}
            write(folder, more)
            status, said = checked(folder)
        write(folder, were)
        shutil.rmtree(kept)
        if status in ENDED:
            yield one, said
    seed.rename(kept)


def at_once():
    """How many checks run at a time: as many as RT_JOBS says, or else one for each processor, as far as the memory that is free serves."""
    if os.environ.get("RT_JOBS", "").isdigit():
        return max(1, int(os.environ["RT_JOBS"]))
    with open("/proc/meminfo") as file:
        free = int(re.search(r"MemAvailable:\s+(\d+)", file.read()).group(1)) >> 20
    return max(1, min(len(os.sched_getaffinity(0)), free // GIGABYTES))


def tried(root, tries):
    """What the checks say at each try, or None; of several crates side by side."""
    logs, left, copies = {one: Log(root, one) for one in tries}, collections.defaultdict(list), queue.SimpleQueue()
    for one, log in logs.items():
        if log.said() is None:
            left[one.crate].append(one)

    def work(crate):
        copy = copies.get()
        try:
            for one, said in try_all(copy / "crates" / crate, left[crate]):
                logs[one].keep(said)
        finally:
            copies.put(copy)

    with tempfile.TemporaryDirectory(prefix="jmux-edits-") as room:
        count = min(at_once(), len(left)) or 1
        for number in range(count if left else 0):
            copies.put(copied(root, pathlib.Path(room) / str(number)))
        with concurrent.futures.ThreadPoolExecutor(count) as pool:
            list(pool.map(work, sorted(left, key=lambda name: -len(left[name]))))
    return {one: log.said() for one, log in logs.items()}

"""The crates of crates.txt, and what each stands on."""


def crates(root):
    """The crates of crates.txt in its order, a crate before its users, each with those that it uses."""
    lines = (line.split("#")[0] for line in (root / "crates.txt").read_text().splitlines())
    pairs = (line.split(":") for line in lines if line.strip())
    return {name.split()[0]: below.split() for name, below in pairs}


def below(all_crates, name):
    """The crates of the repository that a crate stands on, through others too, and itself; those of the toolchain are not among them."""
    found, left = [], [name]
    while left:
        one = left.pop()
        if one in all_crates and one not in found:
            found.append(one)
            left += all_crates[one]
    return sorted(found)

"""What the tools know of the repository: its folder, and the crates of crates.txt."""
import dataclasses
import os

TOP = os.path.dirname(os.path.dirname(os.path.realpath(__file__)))


@dataclasses.dataclass(frozen=True)
class Crate:
    """A line of crates.txt: a crate, what it stands on, and whether its calls are offered."""

    name: str
    libraries: list[str]
    is_public: bool


def groups(top=TOP):
    """Returns the groups of crates.txt in order, each its title and its crates."""
    found = [("", [])]
    with open(f"{top}/crates.txt", encoding="utf-8") as lines:
        for line in lines:
            if line.startswith("## "):
                found.append((line[3:].strip(), []))
                continue
            said, _, comment = line.partition("#")
            name, colon, libraries = said.partition(":")
            if colon:
                crate = Crate(name.split()[0], libraries.split(), comment.strip() == "public")
                found[-1][1].append(crate)
    return [it for it in found if it[1]]


def below(top=TOP):
    """Returns the repository's own crates that each crate names."""
    crates = [it for _, group in groups(top) for it in group]
    own = {it.name for it in crates}
    return {it.name: [on for on in it.libraries if on in own] for it in crates}


def lowest_first(top=TOP):
    """Returns the names of the crates, each behind those that it stands on."""
    under, height = below(top), {}

    def high(name):
        if name not in height:
            height[name] = 1 + max(map(high, under[name]), default=0)
        return height[name]

    return sorted(under, key=high)

"""`crates.txt`: the crates of the repository, lowest first, each with the libraries that it uses."""

LIST = "crates.txt"


def listed_in(text: str) -> dict[str, tuple[int, list[str]]]:
    """The line and the libraries of each crate, in the list's order."""
    listed = {}
    for number, line in enumerate(text.splitlines(), 1):
        name, colon, libraries = line.partition(":")
        if colon and not line.startswith("#"):
            listed[name.split()[0]] = number, libraries.split()
    return listed

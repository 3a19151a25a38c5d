"""The definitions in the crates' specs/ that no contract reaches: a reader need not believe them."""

from .definitions import Definition, Library, Place, imports_of, resolve, words_of


def unused(library: Library) -> list[Definition]:
    """The definitions that no contract, no model and no ghost item of the crates' sources names, nor what these use."""
    named: set[Place] = set()
    for path in library.root.glob("crates/*/src/**/*.rt"):
        text = path.read_text(encoding="utf-8").replace(";\n", "\n")
        names, files = imports_of(text)
        body = "\n".join(line for line in text.splitlines() if not line.strip().startswith(("ghost use", "//")))
        named |= resolve(words_of(body), {}, names, files) | set(names.values())
    reached = {each.place for each in library.below(named)}
    return [each for place, each in library.found.items() if place not in reached]

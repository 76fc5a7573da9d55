"""The crates that a crates.txt lists."""


def dependencies(text):
    """The crates that a crates.txt says each crate needs."""
    lines = (line.partition("#")[0].partition(":") for line in text.splitlines())
    return {name.split()[0]: needed.split() for name, _, needed in lines if name.strip()}

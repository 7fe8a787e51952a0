"""What to say of a program that isn't built."""
# Of each program, a command with which a first call has it built.
FIRST = {"forestplan": "plan", "forestplay": "rounds"}


def how_to_build(name: str) -> str:
    """What builds a program here."""
    # Whoever has the programs doesn't pay for what the import takes.
    import shutil

    first = f"a first call of it, such as `{name} {FIRST[name]} < examples/two.col`, "
    if shutil.which("rt") is None:
        return f"{first}would prove and build it, but the Rattle kit's command rt isn't on the PATH"
    return f"{first}proves and builds it, in 15 minutes or more on four processors"

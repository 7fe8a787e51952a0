"""How numbers, lists and lines are put into words."""
from collections.abc import Iterable


def one_line(text: str) -> str:
    """Words as they may be printed in one line: what is no letter of a line is escaped."""
    return "".join(
        letter if letter.isprintable() else letter.encode("unicode_escape").decode()
        for letter in text
    )


def as_text(lines: Iterable[object]) -> str:
    """Lines as a text, each with a line feed."""
    return "".join(f"{line}\n" for line in lines)


def in_words(things: Iterable[object]) -> str:
    """`2`, `2 and 3`, `2, 3 and 5`."""
    texts = [str(thing) for thing in things]
    return " and ".join(filter(None, [", ".join(texts[:-1]), *texts[-1:]]))


def counted(count: int, one: str, more: str | None = None) -> str:
    """A number of things: `1 node`, `2,000 nodes`."""
    what = one if count == 1 else more or f"{one}s"
    return f"{count:,} {what}"


def duration(seconds: float) -> str:
    minutes, seconds = divmod(int(seconds), 60)
    return f"{minutes} min {seconds} s" if minutes else f"{seconds} s"


def as_utf8(word: str) -> str:
    """A word of the command line as text that can be written. Its bytes may be no UTF-8: such a byte becomes `\\udcff`,
    as on standard error."""
    return word.encode(errors="backslashreplace").decode()

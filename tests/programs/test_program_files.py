"""Tests of the files of programs of one's own that Python itself can't read, or not in a time that anyone has: each is
refused in one line. tests/programs/test_own_algorithms.py has what such a program may do."""
from forestplan.definitions.own_program import compiled_file
from forestplan.faults import Fault
from tests.cases import Case

MARK = "\u0300"
# (text, what is said of it after the name of the file).
REFUSED = (
    ("x = (\n", " line 1: '(' was never closed"),
    ("x = 1\nx = \0\n", "source code string cannot contain null bytes"),
    ("x" + ".x" * 100_000, ": it is nested too deep for Python"),
    ("-" * 100_000 + "1", ": it is nested too deep for Python"),
    ("x" + MARK * 31 + " = 1\n", ": more than 30 marks over one letter"),
    ("#" * (1 << 20) + "\n", ": more than 1 MiB, the most that is read"),
)


class ProgramFiles(Case):
    def test_refused(self) -> None:
        for text, said in REFUSED:
            path = self.file("own.py", text)
            with self.subTest(text[:20]), self.assertRaises(Fault) as found:
                compiled_file(path)
            self.note(f"{text[:20]!r} says why", said in str(found.exception), found.exception)

    def test_read(self) -> None:
        """The mark of UTF-8, line ends of other systems, and some marks over a letter are read."""
        for text in ("\ufeffx = 1\n", "x = 1\r\ny = 2\r\n", f"x = 'u{MARK * 30}'\n"):
            with self.subTest(text):
                self.assertEqual(compiled_file(self.file("own.py", text)).co_names[0], "x")

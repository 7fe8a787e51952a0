"""Tries each reader of src/forestplan/ with some texts that `hypothesis` makes (tests/fuzzing.py): none ends a command
with status 70. `python3 -m tests.by_hand.fuzz` tries as many as you have time for."""
from tests.cases import Case
from tests.readers import Reader, READERS
from tests.settings import setting
from tests.tools import need

# Texts for each reader, and seconds of processor time.
TEXTS, SECONDS = 60, 5.0


def faulty(arguments: list[str]) -> int:
    """A reader that asks for what may not be there."""
    with open(arguments[0], "rb") as file:
        return file.read().index(b"1") and 0


class Fuzz(Case):
    def setUp(self) -> None:
        need(self, "hypothesis")

    def test_none_ends_with_70(self) -> None:
        from tests.fuzzing import tried

        for reader in READERS:
            with self.subTest(reader.name):
                if reader.needs:
                    need(self, reader.needs)
                said: list[str] = []
                found = tried(reader, int(setting("seed")), SECONDS, TEXTS, said.append)
                self.assertEqual(said, [])
                self.assertGreater(found.texts, 0)

    def test_a_fault_is_found(self) -> None:
        from tests.fuzzing import tried

        said: list[str] = []
        tried(Reader("faulty", faulty, ("{file}",), (b"x 1\n",)), 1, SECONDS, TEXTS, said.append)
        self.note("it is said", len(said) == 1 and "ValueError" in said[0], said)

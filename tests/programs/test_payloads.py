"""Which payloads a transcript of each program may have: the words of docs/claim/FORMATS.md (the table of results and
words), each with a number below a power of two, as wide as the crates' own payloads have it (`Hello(u128)`,
`Hops(u32)` and so on). tests/programs/test_hostile.py has the same beside a built program."""
from forestplan.faults import Fault
from forestplan.transcripts.reading import transcript_read
from tests.cases import Case

# By word, how many binary digits a number may have; and the words of each program.
OF_COLOURING = {"hello": 128, "label": 16, "colour": 128, "chosen": 16}
DIGITS = OF_COLOURING | {
    **{"leader": 128, "hops": 32, "free": 16, "take": 16, "joined": 16, "anew": 16}
}
WORDS = {
    "colouring": [*OF_COLOURING],
    "leader": ["leader"],
    "layers": ["hops"],
    "matching": [*OF_COLOURING, "free", "take"],
    "independent-set": [*OF_COLOURING, "joined"],
    "recolouring": [*OF_COLOURING, "anew"],
}


def is_read(program: str, line: str) -> bool:
    """Whether a line is an entry of a transcript of a program."""
    try:
        _, entries = transcript_read(f"transcript 1 2\n{line}\n".encode(), program)
    except Fault:
        return False
    return len(entries) == 1


class Payloads(Case):
    def test_words(self):
        for program, words in WORDS.items():
            found = [word for word in DIGITS if is_read(program, f"1 put 2 payload 0 {word} 0")]
            self.same(f"words of {program}", sorted(found), sorted(words))

    def test_numbers(self):
        for program, words in WORDS.items():
            for word in words:
                least = 2 ** DIGITS[word]
                numbers = [0, least - 1, least, least + 1, 10 * least]
                found = [
                    number
                    for number in numbers
                    if is_read(program, f"1 put 2 payload 0 {word} {number}")
                ]
                self.same(f"numbers of `{word}` in {program}", found, [0, least - 1])

    def test_of_the_others(self):
        """A program of one's own has any word of small letters, and numbers of 128 binary digits."""
        for line, is_entry in (
            (f"1 put 2 payload 0 size {2**128 - 1}", True),
            (f"1 put 2 payload 0 size {2**128}", False),
            ("1 put 2 payload 0 Size 1", False),
        ):
            self.same(line[:40], is_read("tree_count", line), is_entry)

    def test_vertices_and_pulses(self):
        most = 2**32 - 1
        for line in (
            "{} pulse 1",
            "1 pulse {}",
            "{} put 2 close",
            "1 take {} close",
            "1 put 2 ack {}",
        ):
            found = [is_read("colouring", line.format(number)) for number in (most, most + 1)]
            self.same(line, found, [True, False])

"""The pages of the workshop: what they print is printed, and their numbers are those of
the code. And what the folder of a class has, and what it hasn't."""
import glob
import os
import re
import tempfile

from forestplan.build_hint import FIRST
from forestplan.schedules.policies import POLICIES
from forestplan.transcripts.fields import PAYLOADS
from forestplan.workshop import cases, class_files, guard, options, processes, protocol
from tests import TOP
from tests.cases import Case, FolderCase, called, found_in, said_by, text_in
from tests.tools import needs
from tests.workshop.base import MISTAKES, call, python


def page(name):
    return text_in("docs", "learn", name)


NUMBERS = {"five": "5", "ten": "10", "twelve": "12"}


class Pages(Case):
    def test_the_protocol_has_every_verdict(self):
        """All words that a finding is called by in the code."""
        said = set()
        for path in glob.glob(os.path.join(TOP, "src", "forestplan", "workshop", "*.py")):
            said |= set(re.findall(r'(?:[Ff]inding|NoAnswer)\("(\w+)"', text_in(path)))
        self.assertGreater(len(said), 6)
        table = page("PROTOCOL.md").partition("## What is wrong")[2]
        self.assertEqual({word for word in said - {"start"} if f"`{word}`" not in table}, set())

    @needs("bin/forestplan", "bin/forestplay")
    def test_the_first_failure_of_the_skeleton_is_as_the_page_has_it(self):
        block = (
            page("WORKSHOP.md")
            .partition("reports what your node has to do next:\n\n")[2]
            .partition("\n\n")[0]
        )
        lines = [line.strip() for line in block.splitlines()]
        got = call("rounds", "two", "--", *python("skeletons", "node.py")).stdout.splitlines()[2:]
        self.assertEqual(len(got), len(lines))
        for line, wanted in zip(got, lines):
            self.assertTrue(line.startswith(wanted.removesuffix("..")), (line, wanted))

    def test_numbers(self):
        workshop, talking, teaching = page("WORKSHOP.md"), page("PROTOCOL.md"), page("WEEK.md")
        defaults = options.parsed(["rounds", "two", "--", "x"])
        for text, number, sentence in (
            (workshop, defaults.timeout, r"An answer may take ([\d,]+) seconds"),
            (talking, defaults.timeout, r"no answer within ([\d,]+) seconds"),
            (workshop, defaults.memory, r"([\d,]+)\s+megabytes of\s+memory"),
            (workshop, guard.PROCESSOR_SECONDS, r"([\d,]+) seconds of processor time"),
            (workshop, guard.Limits(1, 1, 16).written >> 20, r"may\s+have ([\d,]+) megabytes"),
            (workshop, guard.OPEN_FILES, r"may have at most ([\d,]+) files open"),
            (talking, protocol.MOST_LETTERS, r"up to ([\d,]+)\s+letters"),
            (talking, processes.LAST_LINES, r"shows the last (\w+) lines"),
            (teaching, len(MISTAKES.MISTAKES), r"writes ([\d,]+)\s+wrong nodes"),
            (
                teaching,
                len(MISTAKES.MISTAKES) - 2,
                r"finds\s+([\d,]+) of these mistakes; the other two",
            ),
            (workshop, len(cases.NETWORKS.split(",")), r"plays (\w+) networks under"),
            (workshop, len(POLICIES), r"networks under (\w+) policies"),
            (workshop, 10 * len(cases.NETWORKS.split(",")), r"workshop alpha --runs ([\d,]+) -- "),
            (teaching, len(POLICIES), r"each of the (\w+) policies of which"),
            (teaching, len(cases.NETWORKS.split(",")), r"of which all (\w+) runs are right"),
        ):
            # A line may end at any blank of a page.
            found = found_in(sentence, " ".join(text.split()))[1].replace(",", "")
            self.same(sentence, NUMBERS.get(found, found), f"{number:.0f}")
        self.assertEqual(guard.Limits(1, 1, 17).written < guard.Limits(1, 1, 16).written, True)

    def test_the_protocol_shows_a_message_and_its_answer(self):
        """With a clock and without: both are blocks of code, a line for each line, and end in `end`."""
        shown = re.findall(
            r"workshop writes this message:\n\n((?: {4}.*\n)+)"
            r"\nand your program answers:\n\n((?: {4}.*\n)+)",
            page("PROTOCOL.md"),
        )
        self.same("messages with their answers", len(shown), 2)
        for text in (text for pair in shown for text in pair):
            lines = text.split("\n")[:-1]
            self.same(lines[0].strip(), lines[-1], "    end")

    def test_the_page_has_each_policy_and_each_payload(self):
        for names, text in (
            (POLICIES, "WORKSHOP.md"),
            (map(bytes.decode, PAYLOADS["colouring"]), "PROTOCOL.md"),
        ):
            self.same(text, [name for name in names if f"`{name}`" not in page(text)], [])


@needs("bin/forestplan", "bin/forestplay")
class ClassFolder(FolderCase):
    # The files of the folder.
    found: set[str]

    @classmethod
    def setUpClass(cls):
        super().setUpClass()
        class_files.copy_class(cls.of_class)
        cls.found = {
            os.path.relpath(os.path.join(at, name), cls.of_class)
            for at, _, names in os.walk(cls.of_class)
            for name in names
        }

    def text(self, path):
        return text_in(self.folder, path)

    def test_no_link_of_a_page_leads_to_what_isn_t_there(self):
        """Those that it has in the repository, to pages of the teacher, are words in the folder of a class."""
        count = 0
        for path in (path for path in self.found if path.endswith((".md", ".html"))):
            links = re.findall(r"\]\(([^)#\s]+)|(?:href|src)=\"([^\"#]+)", self.text(path))
            for target in filter(lambda target: ":" not in target, map("".join, links)):
                count += 1
                with self.subTest(page=path, target=target):
                    self.assertTrue(
                        os.path.exists(os.path.join(self.folder, os.path.dirname(path), target))
                    )
        self.assertGreater(count, 30)
        self.assertIn("(PROMISES)", self.text("docs/learn/WORKSHOP.md"))
        self.assertIn("[PROTOCOL](PROTOCOL.md)", self.text("docs/learn/WORKSHOP.md"))

    def test_links_to_what_is_copied_stay(self):
        """Beside it, above it, to a folder, elsewhere, a picture, and to a part of the page itself."""
        paths = {"docs/learn/A.md", "docs/learn/B.md", "docs/pictures/c.svg"}
        for text, right in (
            ("[B](B.md#part)", "[B](B.md#part)"),
            ("[the c](../pictures/c.svg)",) * 2,
            ("[all](../pictures)",) * 2,
            ("[x](https://x.org/a)",) * 2,
            ("[part](#part)",) * 2,
            ("![C](../pictures/d.svg)",) * 2,
            ("see [D](../claim/D.md#part).", "see D."),
        ):
            self.same(text, class_files.page_for_a_class(text, "docs/learn/A.md", paths), right)

    def test_a_name_that_begins_like_one_left_out_is_copied(self):
        for path, right in (
            ("examples/workshop/c/greedy.c", True),
            ("examples/workshop/mistakes.py", True),
            ("examples/algorithms/tree.py", True),
            ("examples/workshop/cards.md", False),
            ("examples/workshop/python_hints.md", False),
            ("examples/algorithms.md", False),
        ):
            self.same(path, class_files.is_left_out(path), right)

    def test_who_may_call_and_change_its_scripts(self):
        """Everybody may call them, and nobody else than their owner may change them."""
        for name in FIRST:
            mode = os.stat(os.path.join(self.of_class, "bin", name)).st_mode
            self.same(name, (mode & 0o111, mode & 0o022), (0o111, 0))

    def test_it_has_no_solution(self):
        for path in (
            "src/forestplan/pictures",
            "src/forestplan/transcripts/judge.py",
            "src/forestplan/schedules/ruled_node.py",
            "examples/workshop/python",
            "examples/workshop/c",
            "examples/workshop/mistakes.py",
            "examples/algorithms",
            "tests",
            "docs/learn/WORKSHOP_ANSWERS.md",
            "docs/learn/TEACHING.md",
            "docs/learn/LECTURE.md",
            "docs/learn/WEEK.md",
        ):
            with self.subTest(path):
                self.assertTrue(os.path.exists(os.path.join(TOP, path)), "it isn't here either")
                self.assertFalse([name for name in self.found if name.startswith(path)])
        # Of the definitions only what messages and events are: no rule of a node.
        defined = sorted(
            path for path in self.found if path.startswith("src/forestplan/definitions")
        )
        self.assertEqual(
            defined,
            ["src/forestplan/definitions/__init__.py", "src/forestplan/definitions/events.py"],
        )
        for path in (path for path in self.found if path.endswith(".py")):
            self.assertNotRegex(
                self.text(path), r"def (bit_step|merge|recolour|settle)\(self, t|def bit_step"
            )

    def test_any_folder_makes_it(self):
        """The command of a folder of a class makes the same."""
        to = os.path.join(self.enterContext(tempfile.TemporaryDirectory()), "a b")
        done = called(os.path.join(self.folder, "bin", "forestlab"), "workshop", "class", to)
        self.same("status", (done[0], done[2]), (0, b""))
        done = called("sha256sum", "-c", "--quiet", "SHA256SUMS", cwd=to)
        self.same("sums", done, (0, b"", b""))
        differ = called("diff", "-rq", "-x", "__pycache__", self.folder, to)
        self.same("the folders", differ, (0, b"", b""))
        said = f"{to} is there already\n"
        self.refusal("a folder that is there", said_by("workshop", "class", to), 2, said)

    def test_it_works(self):
        self.assertLessEqual({"README.md", "LICENSE-MIT", "LICENSE-APACHE"}, self.found)
        environment = {"PATH": os.environ["PATH"], "HOME": self.folder}
        node = ["python3", "examples/workshop/skeletons/node.py"]
        for arguments, status in (
            (["workshop", "rounds", "two", "--", *node], 1),
            (["network", "tell", "petersen"], 0),
            *(
                ([name, "examples/two.col"], 2)
                for name in ("picture", "explore", "simulate", "transcript", "sheet")
            ),
        ):
            done = called(
                os.path.join(self.folder, "bin", "forestlab"),
                *arguments,
                cwd=self.folder,
                env=environment,
            )
            self.note(arguments[0], done[0] == status and b"Traceback" not in done[2], done)

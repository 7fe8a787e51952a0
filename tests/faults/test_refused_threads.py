"""`plan` and `transcript` if a thread is refused, or memory while threads run: they end in one line or in the right
answer, and each thread that was started comes to its end. A push to a deque that is refused changes nothing in the
answer."""
from itertools import product

from forestplan.definitions.colours import plan_text
from forestplan.networks.network_text import network_in_bytes
from forestplan.transcripts.judge import whole_run
from forestplan.transcripts.reading import WrongEntry
from tests.cases import Case, example, text
from tests.commands import EDGE
from tests.commands import TRIANGLE as THREE
from tests.faults.test_refused_memory import THREADS, build_front, under
from tests.settings import PLAN, PLAY
from tests.tools import needs

MOST_WORKERS = 64
TRIANGLE, ONE_EDGE = text(THREE), text(EDGE)
MEMORY = (4, b"", b"forestplan: memory\n")
# Network, workers, and how many microseconds a worker is stopped at a time.
STOPPED = [
    (ONE_EDGE, 4, 5),
    (TRIANGLE, 4, 5),
    (TRIANGLE, 4, 20),
    (ONE_EDGE, 3, 200),
    (TRIANGLE, 8, 20),
    (TRIANGLE, 1, 5),
]


def is_right(command, answer, data=TRIANGLE):
    status, output, fault = answer
    if (status, fault) != (0, b""):
        return False
    if command == "plan":
        return output == plan_text(network_in_bytes(data))
    try:
        return whole_run(network_in_bytes(data), output)[1].startswith("whole run")
    except WrongEntry:
        return False


@needs("forestplan", "forestplay", "cc")
class RefusedThreads(Case):
    def setUp(self):
        self.front = build_front(self.folder, "refuse_growth", "refuse_thread")

    def run_of(self, program, arguments, data=TRIANGLE, growth=0, thread=0):
        """The answer; how many growths were asked for; and how many threads were, how many started, and how many
        ended."""
        answer, counts = under(
            self.front, [program, *arguments], data, REFUSE=growth, REFUSE_THREAD=thread
        )
        return answer, counts[0], counts[2:]

    def test_threads(self):
        """With each number of workers: as many threads are asked for, and if the first, the second, .. of them is
        refused, no other is asked for, and those before it end."""
        rows = [
            *((TRIANGLE, workers) for workers in range(1, MOST_WORKERS + 1)),
            (example("queen5_5"), 4),
        ]
        for data, workers in rows:
            wrong, plan = [], plan_text(network_in_bytes(data))
            for thread in range(workers + 1):
                answer, _, threads = self.run_of(
                    PLAN, ["plan", "--workers", str(workers)], data, thread=thread
                )
                wanted = (
                    (THREADS, [thread, thread - 1, thread - 1])
                    if thread
                    else ((0, plan, b""), [workers] * 3)
                )
                if (answer, threads) != wanted:
                    wrong.append((thread, answer, threads))
            self.note(
                f"each of {workers} threads refused in turn: plan of {data[:12]}",
                not wrong,
                wrong[:3],
            )
        got = [self.run_of(PLAN, ["plan", word])[2] for word in ("--workers=+7", "--workers=007")]
        self.same("a number of workers with a sign or zeros before it", got, [[7, 7, 7]] * 2)

    def test_threads_of_other_runs(self):
        """`transcript` and `run` start as many threads as `--workers` says, whatever nodes run and what is printed."""
        runs = [
            (PLAY, ["run", "--program", program, *shown])
            for program, shown in product(
                ("colouring", "leader", "layers"), ((), ("--transcript",))
            )
        ]
        for (program, arguments), workers in product(
            [(PLAN, ["transcript"]), *runs], (1, 2, 5, MOST_WORKERS)
        ):
            arguments = [*arguments, "--workers", str(workers)]
            answer, _, threads = self.run_of(program, arguments)
            self.same(f"threads of {arguments}", (answer[0], threads), (0, [workers] * 3))

    def test_others_stop(self):
        """A worker makes no turn if it begins after a thread was refused, or after memory was refused to a turn of
        another worker: with a transcript the first turn that does something asks for memory. The workers run one by
        one. Each takes the nodes of its own deque first, so none can end the run without the other; after 1,000 looks
        it stops."""
        front = build_front(self.folder, "one_by_one")

        def run_of(workers, **refused):
            arguments = [PLAN, "transcript", "--turns", "1000", "--workers", str(workers)]
            return under(front, arguments, TRIANGLE, **refused)

        answer, (grown, late) = run_of(2)
        self.same(
            "two workers, one by one", (answer, late), ((3, b"", b"forestplan: stopped\n"), 0)
        )
        self.note("each of them asks for memory", grown > 4, grown)
        for workers, thread in ((2, 2), (5, 2), (5, 5), (MOST_WORKERS, MOST_WORKERS)):
            got = run_of(workers, REFUSE_THREAD=thread)
            self.same(f"thread {thread} of {workers} is refused", got, (THREADS, [0, 0]))
        got = [run_of(2, REFUSE=growth) for growth in range(1, grown + 1)]
        wanted = [(MEMORY, [growth, 0]) for growth in range(1, grown + 1)]
        self.same("each growth of a worker is refused in turn", got, wanted)

    def test_growths_of_workers(self):
        """With several workers a growth of one number is another one in each run. Each is refused, up to twenty more
        than there were in a run without refusals, and that twice for each number of workers."""
        for command in ("plan", "transcript"):
            wrong, late, whole = [], 0, 0
            for workers in (2, 4, 16) * 2:
                arguments = [command, "--workers", str(workers)]
                _, ample, _ = self.run_of(PLAN, arguments)
                for growth in range(1, ample + 20):
                    answer, _, (_, started, ended) = self.run_of(PLAN, arguments, growth=growth)
                    is_refused = answer in (THREADS, MEMORY)
                    late += answer == MEMORY and started == workers
                    whole += not is_refused
                    if not (is_refused or is_right(command, answer)) or ended != started:
                        wrong.append((workers, growth, answer, started, ended))
            good = not wrong and whole > 0 and (late > 0 or command == "plan")
            self.note(
                f"each growth refused in turn: {command} with 2, 4 and 16 workers, {late} of them once all "
                "threads were started",
                good,
                wrong[:3] or (late, whole),
            )

    def test_pushes(self, enough=8, rounds=20, most=100):
        """Runs of several workers that are refused all memory they ask for, until `enough` of them were refused some;
        where few are, after `rounds` rounds one is enough, and where none was after `most` rounds, as on a busy
        machine, the test says that it hasn't seen any. A worker asks for none but in a push, and in this only if a
        thief that has claimed a place of the deque is stopped before it gives it free, while the owner comes round to
        the place again: so the workers are stopped all the time, and the networks are small. With one worker there is
        no thief. If a refused push dropped its node, the run wouldn't end, or the nodes couldn't be gathered.
        """
        front = build_front(self.folder, "refuse_in_threads")
        wrong: list[tuple] = []
        counts: list[int] = []
        for number in range(most):
            if wrong or sum(map(bool, counts)) >= (enough if number < rounds else 1):
                break
            for data, workers, stop in STOPPED:
                answer, refused = under(
                    front, [PLAN, "plan", "--workers", str(workers)], data, STOP=stop
                )
                counts.append(sum(refused))
                if answer != (0, plan_text(network_in_bytes(data)), b"") or (
                    workers == 1 and counts[-1] > 0
                ):
                    wrong.append((data, workers, stop, answer, counts[-1]))
        self.note(
            f"pushes refused in the middle of a run: in {sum(map(bool, counts))} of {len(counts)} runs of plan "
            f"with up to 8 workers, {sum(counts)} refusals",
            not wrong,
            wrong[:3],
        )
        if not any(counts):
            self.skipTest("a machine calm enough to refuse a push isn't installed")

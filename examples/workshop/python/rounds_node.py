"""A node with a clock: each message is a pulse and its inbox, and the answer is what the node sends in that pulse.
rounds_node.py [PROGRAM]"""
from programs import PROGRAMS
from talk import serve


class RoundsNode:
    def __init__(self, own, program="colouring"):
        self.program = PROGRAMS[program](own)

    def start(self):
        return self.answer(0, self.program.greet())

    def react(self, lines):
        pulse = int(lines[0][1])
        inbox = {int(port): (word, int(number)) for _, port, word, number in lines[1:]}
        return self.answer(pulse, self.program.pulse(pulse, inbox))

    def answer(self, pulse, out):
        answer = puts(out) + self.program.lines(pulse)
        if pulse == self.program.last:
            answer.append(self.program.result())
        return answer


def puts(out):
    return [f"put {port} {word} {number}" for port, (word, number) in out.items()]


if __name__ == "__main__":
    serve(RoundsNode)

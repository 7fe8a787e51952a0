"""A node without a clock, under synchroniser alpha: each message is a wire that it takes, and the answer is what it
then puts, and the pulses that it makes. The synchroniser is the same for each program: alpha_node.py [PROGRAM]"""
from programs import PROGRAMS
from talk import serve


class Port:
    def __init__(self):
        self.waits = False  # for the acknowledgement of our payload of this pulse
        self.safe = (
            self.early_safe
        ) = False  # whether the neighbour said safe of this pulse, and of the next
        self.present = self.early = None  # the neighbour's payload of this pulse, and of the next


class AlphaNode:
    def __init__(self, own, program="colouring"):
        self.program, self.last = PROGRAMS[program](own), own["last"]
        self.ports = [Port() for _ in range(own["degree"])]
        self.pulse, self.said, self.answer = 0, False, []

    def start(self):
        self.enter(self.program.greet())
        self.go_on()
        return self.flush()

    def react(self, lines):
        _, at, kind, *rest = lines[0]
        port = self.ports[int(at)]
        if kind == "payload":
            self.take_payload(port, int(rest[0]), (rest[1], int(rest[2])))
            self.put(at, f"ack {rest[0]}")
        elif kind == "ack":
            port.waits = False
            self.say_safe_if_it_is()
        elif kind == "safe":
            self.take_safe(port, int(rest[0]))
        self.go_on()  # a `close` asks for nothing
        return self.flush()

    def take_payload(self, port, pulse, payload):
        if pulse == self.pulse:
            port.present = payload
        else:
            port.early = payload

    def take_safe(self, port, pulse):
        if pulse == self.pulse:
            port.safe = True
        else:
            port.early_safe = True

    def go_on(self):
        """Makes each pulse that it can."""
        while self.pulse < self.last and self.said and all(port.safe for port in self.ports):
            inbox = {at: port.present for at, port in enumerate(self.ports) if port.present}
            self.pulse += 1
            self.said = False
            for port in self.ports:
                port.present, port.early = port.early, None
                port.safe, port.early_safe = port.early_safe, False
            self.answer.append(f"pulse {self.pulse}")
            self.enter(self.program.pulse(self.pulse, inbox))

    def enter(self, out):
        if self.pulse == self.last:
            for at in range(len(self.ports)):
                self.put(at, "close")
            self.answer.append(self.program.result())
            return
        for at, (word, number) in out.items():
            self.put(at, f"payload {self.pulse} {word} {number}")
            self.ports[at].waits = True
        self.say_safe_if_it_is()

    def say_safe_if_it_is(self):
        if self.pulse < self.last and not any(port.waits for port in self.ports):
            self.said = True
            for at in range(len(self.ports)):
                self.put(at, f"safe {self.pulse}")

    def put(self, at, wire):
        self.answer.append(f"put {at} {wire}")

    def flush(self):
        answer, self.answer = self.answer, []
        return answer


if __name__ == "__main__":
    serve(AlphaNode)

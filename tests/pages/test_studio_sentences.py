"""What the studio's page says of nodes while they run: in each state that chance leads to, it is what can happen next,
under every rule that is left out."""

from tests.pages.test_studio_page import Page

# The rows of the list, where the page contradicts itself: a node whose pulse can be made and that "waits", one that
# "may make" a pulse that can't be made, and words of an end while a pulse is possible.
CONTRADICTIONS = """(() => { const is = studio.steps.found, found = [];
  const rows = Array.from(document.querySelectorAll('#possible > div'));
  const said = document.getElementById('stepsaid').textContent;
  rows.forEach((row, k) => { const words = row.querySelector('span').textContent,
    can = is.steps.includes(String(k + 1)), label = document.querySelector(`#net [data-node="${k + 1}"]`).ariaLabel;
    for (const one of [words, label]) {
      if (/may make pulse/.test(one) !== can) found.push([k + 1, one, can]);
      if (can && /of [0-9]/.test(one)) found.push([k + 1, one, can]);
      if (is.over && /waits|of [0-9]/.test(one)) found.push([k + 1, one, "the run has ended"]); } });
  const pulses = is.steps.some(one => !one.includes("-"));
  if (/halted|can happen, and|ends here/.test(said) && pulses) found.push(said);
  if (/All have halted/.test(said) && is.steps.length && !/under way/.test(said)) found.push(said);
  const isTake = (studio.steps.made.at(-1) || "").includes("-");
  if (/program refuses/.test(said) && isTake) found.push(said + " after a message");
  return found; })()"""
STEPS = 12
# Node 2 takes the payload of pulse 1 before the safe of pulse 0, which it can't.
OVERTAKEN = "example=two&tab=adversary&without=fifo&steps=2-1_1-2_1-2_2-1_1-2_1_2-1-1"


class Sentences(Page):
    def test_nothing_right_is_called_wrong(self) -> None:
        """Without safes a node doesn't wait for them: that is lesson 6."""
        self.go_to("example=two&tab=adversary&without=safes&node=1&predict=1&steps=1-2_2-1_1-2_2-1")
        self.sees("a question", "document.querySelector('#question2 input')")
        self.value("document.querySelector('#question2 form').requestSubmit()")
        self.sees("an answer", "/[✓✗]|yet/.test(document.getElementById('question2').textContent)")
        said = self.page.text("question2")
        self.note("`nothing` is right", "✓" in said, said)

    def test_every_rule(self) -> None:
        for rules in ("", "safes", "acks", "safes,acks", "fifo", "early", "safes,acks,early,fifo"):
            for program in ("colouring", "leader"):
                place = f"example=two&tab=adversary&program={program}"
                self.go_to(f"{place}&without={rules}" if rules else place)
                self.sees(f"{program} without {rules}", "document.querySelector('#possible > div')")
                for step in range(STEPS):
                    self.reads(f"{program} without {rules}, step {step}", CONTRADICTIONS, [])
                    made = self.value("studio.steps.made.length")
                    self.value("document.getElementById('chance').click()")
                    if not self.page.until(
                        f"studio.steps.made.length > {made} || document.getElementById('chance').disabled"
                    ):
                        break

    def test_a_refused_message(self) -> None:
        """What a node can't take isn't refused by its program, which is asked in a pulse alone."""
        self.go_to(OVERTAKEN)
        self.sees("it is refused", "studio.steps.found && studio.steps.found.over")
        self.reads("what is said of it", CONTRADICTIONS, [])

    def test_after_the_last_pulse(self) -> None:
        """In a run no node is said to make a pulse after its last one."""
        self.go_to("example=two&tab=run&seed=3")
        self.sees("a run", "studio.run.found && studio.run.found.judge")
        late = """(() => { const {film} = studio.run, found = [];
          for (let at = 0; at <= film.table.rows.length; at++) {
            studio.time.set(at ? film.table.rows[at - 1][0] : 0);
            for (const [said, pulse] of document.getElementById('table').textContent.matchAll(/may make pulse (\\d+)/g))
              if (+pulse > film.found.last) found.push(said); }
          return found; })()"""
        self.reads("no pulse after the last", late, [])

"""The lessons and the lecture as the studio shows them: for each step its place (what is after the `#` of the studio's
address), one instruction, and its exercise. This table is the only place where they are written.

docs/learn has a page for each lesson, which says the same at length. tests/pages/test_lessons.py compares the titles,
questions and links of these pages with this table. A changed page never stops the studio: it only has that page's text
to unfold (`page_text`)."""
import os
import re
from collections.abc import Sequence
from dataclasses import dataclass

from forestplan.folders import TOP
from forestplan.schedules.rules import OF_SCHEDULES
from forestplan.studio.answers import TABS, Exercise, LecturePlace, Lesson, LessonStep, TabName


@dataclass(frozen=True, kw_only=True)
class SaidExercise:
    """An exercise that is answered in the lesson's card, by typing or by picking; `right` is the right answer."""

    name: str
    asks: str
    right: str
    picks: Sequence[str] = ()
    hint: str
    answer: str


@dataclass(frozen=True, kw_only=True)
class SeenExercise:
    """An exercise that is done in the studio: `GOALS` of exercises.py has what judges it, by its name."""

    name: str
    hint: str
    answer: str


@dataclass(frozen=True, kw_only=True)
class PredictedExercise:
    """An exercise that is the tab's own question, about the node and the next pulse of the step's place."""

    name: str
    hint: str
    answer: str


@dataclass(frozen=True)
class TableStep:
    place: str
    do: str
    exercise: SaidExercise | SeenExercise | PredictedExercise | None = None


@dataclass(frozen=True)
class LessonSteps:
    """A lesson of the table."""

    title: str
    ask: str
    steps: Sequence[TableStep]


CHANNELS = LessonSteps(
    "Channels that do not clash",
    "Each of ten transmitters knows only its own number, its number of neighbours and four counts. Can they agree on "
    "channels, so that no two neighbours have the same?",
    [
        TableStep(
            "example=petersen&tab=draw",
            "A line joins two transmitters that would disturb each other: they are *neighbours*. The number in a "
            "circle is the transmitter's channel, and the number beside the circle is its own. Look for a line that "
            "has one channel at both ends. There is none, so this plan is *proper*.",
            SaidExercise(
                name="enough",
                asks="Each transmitter has three neighbours. How many channels are always enough if the transmitters "
                "choose one after another, in any order, each the lowest channel that is free?",
                right="4",
                hint="Think of the transmitter that chooses last. How many channels does it have to avoid?",
                answer="Four. The last transmitter that chooses avoids at most three channels, those of its three "
                "neighbours, so one of four channels is free.",
            ),
        ),
        TableStep(
            "",
            "Nobody is in charge. A transmitter knows only its own number, its links, and four counts: how many "
            "transmitters there are; the most neighbours that any of them has; the most neighbours with a higher "
            "number; and the most channels that are barred at one, which it must not use. Click a transmitter: "
            "[below this card](panel:chosen) you read which neighbours it has.",
        ),
        TableStep(
            "example=petersen&tab=check&plan=1_2_1_2",
            "Make a proper plan yourself. Four transmitters have a channel already. Click a transmitter to give it the "
            "next channel[, or go to it with the Tab key and type a digit](keys:). A dashed line is a clash.",
            SeenExercise(
                name="proper",
                hint="Give a transmitter the least channel that none of its neighbours has. If you are stuck, change "
                "one of the first four.",
                answer="For example 1, 2, 1, 2, 3, 2, 1, 3, 3, 4 for the transmitters 1 to 10.",
            ),
        ),
        TableStep(
            "net=~&tab=draw",
            "In a row two channels are always enough. Yet the program's plan may have three, because it goes by the "
            "numbers. Click four places to draw four transmitters[ (or press A four times)](keys:). Then join them to "
            "a row so that the plan takes three channels: click a transmitter, then the one to join it with. (The "
            "row 1 – 2 – 3 – 4 takes two channels.)",
            SeenExercise(
                name="row",
                hint="Transmitter 4 lies between the transmitters 1 and 2.",
                answer="Join 3 with 1, 1 with 4, and 4 with 2. The only other row is 1 – 4 – 2 – 3. In both, "
                "transmitter 1 or 2 has two neighbours with higher numbers, so the plan is put together from two "
                "parts: lessons 2 to 4 say how.",
            ),
        ),
        TableStep(
            "net=0.0_90.70_180.0_270.70~1-2_2-3_3-4&tab=draw",
            "Why don't transmitters simply choose in the order of their numbers? Each of them would wait until all "
            "its neighbours with a lower number have chosen. A transmitter without such a neighbour chooses in "
            "round 1. (In the circles are still the channels of the program, which goes another way.)",
            SaidExercise(
                name="rounds",
                asks="In how many rounds would this row choose?",
                right="4",
                hint="Which transmitter waits for which other one?",
                answer="In four: each transmitter waits for the one before it.",
            ),
        ),
        TableStep(
            "",
            "Now part and join these four transmitters so that a row of them chooses in only two rounds, still in the "
            "order of the numbers. Two clicks on two neighbours part them.",
            SeenExercise(
                name="two",
                hint="Two of the four have to choose in round 1, so these two need no neighbour with a lower number.",
                answer="For example 1 – 3 – 2 – 4. The transmitters 1 and 2 choose in round 1, and 3 and 4 in round 2.",
            ),
        ),
        TableStep(
            "example=path&tab=draw",
            "The program needs far fewer rounds in a long row. Below *Make a network*, which is "
            "[below this card](panel:make), choose *path* and 400 nodes, and press *make*. Then read "
            "[in its facts](panel:plan) how many rounds the plan took.",
            SeenExercise(
                name="long",
                hint="*Make a network* is below this card, between the facts on the plan and the network as text.",
                answer="A row that is numbered from end to end takes the rounds 0 to 21, whether it has 3 nodes or "
                "400. In the order of the numbers 400 transmitters would take 400 rounds. (Your row with three "
                "channels took the rounds 0 to 30, because it has two forests: lesson 2 says what these are.)",
            ),
        ),
    ],
)
FORESTS = LessonSteps(
    "Cut the network into forests",
    "Why is a tree easier to colour than a network?",
    [
        TableStep(
            "example=four_cycle&tab=rounds&at=1",
            "From now on a transmitter is called a *node*. It has an *identifier*: its number, unless it is given "
            "another one. Here are four nodes in a ring. Each node numbers its neighbours with a higher identifier, "
            "the lowest first, from 0. The edge to neighbour 0 is in forest 0, the edge to neighbour 1 in forest 1. An "
            "arrow goes from the lower node, the *child*, to the higher one, its *parent*. Choose *forest 0* and "
            "*forest 1* [below this card](panel:forests): every edge is in exactly one of the two.",
            SaidExercise(
                name="root",
                asks="Follow the arrows of forest 0 from node 1. At which node do they end?",
                right="4",
                hint="The arrows of forest 0 are the dark ones while *forest 0* is chosen below this card.",
                answer="At node 4: from 1 to 2, from 2 to 3, from 3 to 4. Node 4 has no parent, so it is a *root*.",
            ),
        ),
        TableStep(
            "example=four_cycle&tab=rounds&at=1&forest=0",
            "A tree is easier than a network, because in a tree one rule is enough: be different from your parent. So "
            "the pieces must be trees: the arrows of a forest must never close a ring.",
            SaidExercise(
                name="ring",
                asks="Why can arrows never close a ring?",
                right="each arrow leads to a higher identifier",
                picks=(
                    "each arrow leads to a higher identifier",
                    "no node has more than two neighbours",
                    "a ring has an even number of nodes",
                ),
                hint="Suppose that there is a ring. Which arrows of the ring leave its node with the lowest "
                "identifier?",
                answer="Each arrow leads to a higher identifier. Suppose that some arrows of a forest close a ring. "
                "The node of the ring with the lowest identifier has two neighbours on the ring, both are higher, "
                "and so two arrows leave it. But in one forest at most one arrow leaves each node.",
            ),
        ),
        TableStep(
            "example=star&tab=draw",
            "The star has a centre, node 9, and eight leaves around it. Each leaf has one neighbour, the centre, which "
            "is higher. So all eight edges are in forest 0, and there is one forest.",
            SaidExercise(
                name="forests",
                asks="Suppose that the centre has the lowest identifier. How many forests are there then?",
                right="8",
                hint="Count the neighbours of the centre that have a higher identifier.",
                answer="Eight. The centre has eight higher neighbours, and gives its edges to them eight different "
                "numbers: each is in a forest of its own.",
            ),
        ),
        TableStep(
            "example=star&tab=draw&node=9",
            "Try it. The centre is chosen, and its fields are [below this card](panel:chosen). Type 0 into the field "
            "*identifier* and press Enter. The centre is still called node 9 in the picture, and has its new "
            "identifier in brackets beside it: a node keeps its number, and the algorithm goes by the identifiers. "
            "Then read [in the facts on the plan](panel:plan) how many forests it took.",
            SeenExercise(
                name="centre",
                hint="The field is below this card, below *Node 9*. If node 9 isn't chosen any more, click it.",
                answer="With the identifier 0 the centre is the lowest node, and the facts on the plan say *by way of "
                "8 forests*.",
            ),
        ),
    ],
)
COLOURS = LessonSteps(
    "From identifiers to three colours",
    "There are 2¹²⁸ identifiers. How do a few messages turn them into six colours, and then into three?",
    [
        TableStep(
            "example=petersen&tab=rounds&at=2&forest=0&node=6",
            "All nodes work in rounds, which are called *pulses*. At pulse 2 each node has its identifier as its "
            "colour (the number in the square), and hears its parent's colour.\n\n"
            "**Bit step:** write your colour and your parent's in binary digits. Count the digits from the right, "
            "from 0. Look for the lowest digit in which the two differ: digit *i*. Your next colour is 2·*i*, plus "
            "your own digit there.\n\n"
            "Node 6 has 110, and its parent, node 8, has 1000. They differ in digit 1 first, where node 6 has a 1. So "
            "its next colour is 2·1 + 1 = 3. Press ▶ (one step on) below the network to see it.",
        ),
        TableStep(
            "example=petersen&tab=rounds&at=2&forest=1&node=1&predict=1",
            "Now you, in forest 1. Node 1 has the colour 1, and its parent there, node 5, has the colour 5. Make the "
            "bit step of node 1.",
            PredictedExercise(
                name="bit",
                hint="1 is 001, and 5 is 101. In which digit do they differ, counted from the right, from 0?",
                answer="It is 4. They differ in digit 2, where node 1 has a 0: 2·2 + 0 = 4.",
            ),
        ),
        TableStep(
            "example=petersen&tab=rounds&at=2&forest=2&node=7&predict=1",
            "Node 7 has no parent in forest 2: it is a root there. A root takes *i* = 0, so its next colour is its own "
            "digit at the right.",
            PredictedExercise(
                name="root",
                hint="7 is 111. Which is its digit 0, the one at the right?",
                answer="It is 1, the digit at the right of 111.",
            ),
        ),
        TableStep(
            "example=petersen&tab=rounds&at=3&forest=1&node=1&predict=1",
            "Forest 1 again, one pulse later. Node 1 has the colour 4 now. Its parent, node 5, is a root in this "
            "forest, and has the colour 1. Which colour comes next at node 1?",
            PredictedExercise(
                name="again",
                hint="4 is 100, and 1 is 001.",
                answer="It is 0. They differ in digit 0 first, where node 1 has a 0: 2·0 + 0 = 0.",
            ),
        ),
        TableStep(
            "example=petersen&tab=rounds&at=6&forest=0",
            "After four bit steps, at pulse 6, every colour is one of 0 to 5, even if the identifiers had 128 digits. "
            "A fifth bit step wouldn't help: the colours 0 to 5 have at most three digits, the digits 0, 1 and 2.",
            SaidExercise(
                name="six",
                asks="What is the greatest colour that a bit step can make of colours from 0 to 5?",
                right="5",
                hint="How large can *i* be? And how large can the node's own digit be?",
                answer="It is 5. The greatest *i* is 2, and 2·2 + 1 = 5. So six colours stay six.",
            ),
        ),
        TableStep(
            "example=drops&tab=rounds&at=6&forest=0&node=1&predict=1",
            "Three of the six colours have to go: 5, then 4, then 3. Before each of them comes a **shift**: each node "
            "takes its parent's colour, and a root takes the least of 0, 1, 2 other than its own. Here the nodes "
            "1 – 2 – 3 – 4 – 8 – 12 – 13 – 14 – 16 are a row. The parent of node 1 is node 2.",
            PredictedExercise(
                name="shift",
                hint="Look at the square of node 2.",
                answer="It is 5. Node 2 has the colour 5 at pulse 6, and node 1 takes it.",
            ),
        ),
        TableStep(
            "example=drops&tab=rounds&at=11&forest=0&node=3&predict=1",
            "After the shift comes a **drop**. In pulse 12 each node with the colour 3 takes the least of 0, 1, 2 that "
            "neither its parent nor its children have. All its children have the colour that the node itself had "
            "before the shift. Here node 3 drops its 3; its parent is node 4, and its child is node 2.",
            PredictedExercise(
                name="drop",
                hint="Read the squares of node 4 and of node 2.",
                answer="It is 2. Its parent, node 4, has the colour 0, and its child, node 2, has the colour 1. Nobody "
                "told node 3 the 1: it had this colour itself before the shift.",
            ),
        ),
    ],
)
MERGE = LessonSteps(
    "Merge the forests",
    "Each forest has its own three colours. How do they become one plan?",
    [
        TableStep(
            "example=triangle&tab=rounds&at=13",
            "The forests are merged one after the other. Below a node is its pair: the square is its colour in the "
            "forest that is merged, and the number beside it is its *merged colour*, at first 0. The pairs have their "
            "turns one after another: (0, 0), then (0, 1), and so on. When it is a pair's turn, each node that has it "
            "takes the least channel that no neighbour in this forest, or in one merged before, has taken in this "
            "merge. Colours count from 0 and channels from 1: whoever takes channel 2 has the merged colour 1 in "
            "the next merge. Press *next change* below the network to go from choice to choice.",
            SaidExercise(
                name="first",
                asks="Which node chooses first in the merge of forest 1, at pulse 22?",
                right="3",
                hint="Press *next change* until *forest 1* is chosen below this card. A node that chooses is ringed in "
                "yellow.",
                answer="Node 3: it has the pair (0, 0).",
            ),
        ),
        TableStep(
            "example=triangle&tab=rounds&at=25&node=2&predict=1",
            "In this merge node 3 has taken channel 1, and node 1 has taken channel 2. In pulse 26 it is node 2's "
            "turn.",
            PredictedExercise(
                name="turn",
                hint="Both other nodes are neighbours of node 2, and have told it what they have taken.",
                answer="3: channels 1 and 2 are taken by its neighbours.",
            ),
        ),
        TableStep(
            "example=triangle&tab=rounds&at=30&node=2",
            "Why has node 2 channel 3? [Below this card](panel:why) you read which messages decided it, back to the "
            "identifiers. On the network a node has a grey ring if its identifier was one of these. (Node 2 also has "
            "the golden ring of the chosen node.) Step back with ◀: a dashed message decided nothing.",
            SaidExercise(
                name="identifiers",
                asks="Which node's identifier played no part in it?",
                right="1",
                hint="This node has no grey ring at pulse 30.",
                answer="That of node 1. In a shift a node takes its parent's colour, so the colours of node 1 go back "
                "to the identifiers of its parents, the nodes 2 and 3.",
            ),
        ),
        TableStep(
            "example=four_cycle&tab=rounds&at=22",
            "Each pair has a pulse of its own, even a pair that no node has: no node can know that nobody far away has "
            "it. In the ring the merge of forest 1 begins at pulse 22 with the pair (0, 0). There are three colours of "
            "either kind, 0 to 2.",
            SaidExercise(
                name="pulse",
                asks="Node 4 has the pair (1, 1). In which pulse does it choose?",
                right="26",
                hint="Which pairs come before (1, 1)? (0, 0), (0, 1), (0, 2) and (1, 0).",
                answer="In pulse 26: four pairs come before its own, so 22 + 4. Its neighbours 1 and 3 have taken "
                "channel 1 by then, and it takes channel 2.",
            ),
        ),
        TableStep(
            "example=triangle&tab=draw&node=3",
            "A channel may be barred at a node, for example because a hospital near it has it. Node 3 is chosen, which "
            "has channel 1. Type 1 into its field *barred channels* [below this card](panel:chosen), and press Enter. "
            "This card then says who has another channel than before.",
            SeenExercise(
                name="bar",
                hint="The field is below this card, below *Node 3*. If node 3 isn't chosen any more, click it.",
                answer="The plan was 2, 3, 1 for the nodes 1, 2, 3. With the bar it is 1, 3, 2: node 3 can't "
                "have channel 1 any more, and its neighbour node 1 has taken it.",
            ),
        ),
    ],
)
NO_CLOCK = LessonSteps(
    "No clock",
    "What if nobody strikes the hour, and messages take as long as they like?",
    [
        TableStep(
            "example=chain6&tab=run&slow=2-3&seed=7&play=1",
            "Nobody strikes the hour any more. Each node goes by itself, and the number in it is its pulse. What goes "
            "over the dotted link waits as long as it can, so the nodes on its left fall behind. Let the run play, or "
            "move the slider, and compare the numbers of neighbours.",
            SaidExercise(
                name="neighbours",
                asks="How many pulses are two neighbours apart at most?",
                right="1",
                hint="Stop the run at some places. Which numbers has a node, and which have its two neighbours?",
                answer="One. Below this card you read now how far apart the pulses are at each place. A node makes "
                "pulse *p* + 1 only after each neighbour has told it that it is safe in pulse *p*; so each neighbour "
                "is at pulse *p* at least.",
            ),
        ),
        TableStep(
            "example=triangle&tab=adversary&node=1&steps=2-1_1-2_1-2&predict=1",
            "How does a node know when to go on? There are four kinds of messages. A *payload* is the algorithm's own "
            "message. An *ack* says: I have your payload. A *safe* says: all my payloads of this pulse are "
            "acknowledged. (A *close* ends a link.) A node makes its next pulse when its own payloads are acknowledged "
            "and all its neighbours are safe. Node 2's payload has come here, and its ack for node 1's payload, and "
            "nothing else. (A message waits beside the node that is to take it.)",
            PredictedExercise(
                name="waits",
                hint="Node 1 has sent a payload to each of its neighbours, 2 and 3. One ack has come.",
                answer="For the ack of 3, and for the safes of 2 and 3.",
            ),
        ),
        TableStep(
            "example=chain6&tab=run&slow=2-3&seed=7",
            "Neighbours are at most one pulse apart. The six nodes of this row are joined by five links.",
            SaidExercise(
                name="ends",
                asks="How many pulses can the two ends of the row be apart?",
                right="5",
                hint="From node 1 to node 6 you pass five links.",
                answer="Five: one for each link between them.",
            ),
        ),
        TableStep(
            "example=chain6&tab=adversary&dare=ends&node=1",
            "Make it happen. Now you are the network, and say what comes next. [Below this card](panel:possible) press "
            "*hold its pulse* of node 1. Then press *20 by chance* again and again, until this card says that it is "
            "done.",
            SeenExercise(
                name="far",
                hint="As long as node 1 makes no pulse, node 2 comes to pulse 1 at most, node 3 to pulse 2, and so on.",
                answer="Hold the pulse of node 1, and let everything else happen: node 6 comes to pulse 5, and node 1 "
                "is still at pulse 0.",
            ),
        ),
        TableStep(
            "example=chain6&tab=run&slow=2-3&seed=7&other=newest.2",
            "Here are two runs of the same six nodes, one below the other. In the second one other messages come "
            "first. Let them play. The lines *Beside the rounds* [below this card](panel:same) compare both with a run "
            "that has a clock.",
            SaidExercise(
                name="same",
                asks="What is the same in both runs, and with a clock?",
                right="the payloads that each pulse reads",
                picks=(
                    "the payloads that each pulse reads",
                    "the order of the events",
                    "which node is ahead",
                ),
                hint="Read the lines *Beside the rounds* below this card.",
                answer="The payloads that each pulse reads, and so the channels. It is proved that this holds for "
                "every network and every order.",
            ),
        ),
    ],
)
SCHEDULES = LessonSteps(
    "Every schedule",
    "A run is one order of events. Can you see all orders that there are? And what goes wrong if a rule is left out?",
    [
        TableStep(
            "example=path&tab=adversary",
            "You are the network: you choose which message is taken next, and which node makes its pulse. Click a "
            "message on the network, or a button [below this card](panel:possible), until a node makes pulse 1. A node "
            "with a green ring can make its pulse now: click it. (What an *ack* and a *safe* say is in "
            "[lesson 5](#lesson=5&step=2).)",
            SeenExercise(
                name="pulse",
                hint="Node 1 has one neighbour, node 2. It needs the ack and the safe of node 2. Node 2 can send its "
                "safe only when both its neighbours have sent their acks.",
                answer="For example: node 2 takes both greetings, the nodes 1 and 3 take theirs, node 2 takes both "
                "acks. Node 1 then takes the ack and the safe of node 2, and makes pulse 1.",
            ),
        ),
        TableStep(
            "example=two&tab=adversary&dare=apart",
            "A *dare* is a goal: its card is [below this one](panel:dared). Bring two neighbours two pulses apart. All "
            "rules are kept. Try it for a moment.",
            SaidExercise(
                name="possible",
                asks="Can you win this dare with all rules?",
                right="no",
                picks=("yes", "no"),
                hint="Node 1 makes pulse 1. What must it have heard from node 2 before it makes pulse 2?",
                answer="No. A node makes its next pulse only when its neighbours are safe in this one, so neighbours "
                "are at most one pulse apart. It is proved for every network.",
            ),
        ),
        TableStep(
            "example=two&tab=adversary&without=safes&dare=apart",
            "Now a rule is left out: nodes don't wait for the safes of their neighbours. Win the same dare.",
            SeenExercise(
                name="apart",
                hint="Let one node go ahead. It still needs acks, so the other one has to take its payloads; but the "
                "other one needn't make a pulse.",
                answer="For example: let each node take the other one's greeting, and node 1 the ack, and make pulse "
                "1. Then let both take all that is on the link, until node 1 can make pulse 2. Node 2 makes no pulse.",
            ),
        ),
        TableStep(
            "example=two&tab=adversary&without=safes&dare=wrong",
            "Still without the safes: have a node make a pulse with another inbox than that of its round. (Its *inbox* "
            "is all payloads that it reads in this pulse.) Chance wins this dare, too, but in many steps. Do it in at "
            "most five.",
            SeenExercise(
                name="wrong",
                hint="Node 2 sends no payload in pulse 1. So what does it wait for before pulse 2, if not for safes?",
                answer="Node 1 takes the greeting of node 2, node 2 takes the greeting and the ack of node 1. Then "
                "node 2 makes pulse 1 and at once pulse 2, without the label of node 1, which it hasn't taken.",
            ),
        ),
        TableStep(
            "example=path&tab=adversary",
            "The studio plays the one order that you choose. The command `forestlab explore two` covers all orders "
            "of two nodes. There are 1.4·10²¹ of them, but only 281 states, and it visits each state once, in a "
            "second. In every order each message is taken once, and each node makes each pulse once.",
            SaidExercise(
                name="events",
                asks="In this row of three, 148 messages are sent in a whole run. All nodes begin at pulse 0, and 21 "
                "is the last pulse that each of them makes. How many takes and pulses has each order?",
                right="211",
                hint="148 takes, and 21 pulses of each of the three nodes.",
                answer="211: 148 takes and 3·21 = 63 pulses.",
            ),
        ),
        TableStep(
            "example=two&tab=adversary&without=acks",
            "Without the rule `acks` a node says safe at once, and still nothing goes wrong: the safe comes after the "
            "payload on the same link. It goes wrong if a second rule is left out, too. Open *leave out* "
            "[below this card](panel:withoutsaid) to read the rules.",
            SaidExercise(
                name="second",
                asks="Which rule, left out alone, gives no pulse a wrong inbox, but does so if `acks` is left out, "
                "too?",
                right="fifo",
                picks=tuple(rule for rule in OF_SCHEDULES if rule != "acks"),
                hint="The safe must not overtake the payload.",
                answer="`fifo`, the order on the links. Without both rules a safe can overtake the payload before it, "
                "so a node makes its pulse without this payload.",
            ),
        ),
    ],
)
MORE = LessonSteps(
    "More from the same forests",
    "The nodes know their forests and their colours. What else can they agree on with them?",
    [
        TableStep(
            "example=triangle&tab=rounds&program=matching&at=12",
            "Two neighbours can become *partners*, and each node has at most one. After pulse 12 each forest has a "
            "turn for each of its three colours, one after another. In the first pulse of a turn all free nodes tell "
            "their parents that they are free. In the second, each free node of the turn's colour takes one of its "
            "free children. At a node is the port of its partner: *partner 1 to 3* is port 1, which leads to node 3. "
            "(A port counts a node's neighbours, the lowest first, from 0.) Press *next change* until the end.",
            SaidExercise(
                name="alone",
                asks="Which node has no partner in the end?",
                right="1",
                hint="At a node without a partner is *partner none*.",
                answer="Node 1. Both its neighbours are partners of each other, so nobody is left for it: the matching "
                "is *maximal*.",
            ),
        ),
        TableStep(
            "example=path&tab=rounds&program=matching&at=14&node=2&predict=1",
            "In this row of three it was node 3's turn in pulse 14. It has taken its free child, node 2, and the "
            "message on the link tells node 2 so. Answer with the words that are at a node: *partner none*, or "
            "*partner* and the port.",
            PredictedExercise(
                name="partner",
                hint="Node 2 reads now that node 3 has taken it. Which port of node 2 leads to node 3? Its neighbours "
                "are 1 and 3.",
                answer="partner 1: port 0 leads to node 1, and port 1 to node 3.",
            ),
        ),
        TableStep(
            "example=petersen&tab=rounds&program=matching&at=31",
            "The ten nodes have found their partners. A thick line joins two partners.",
            SaidExercise(
                name="pairs",
                asks="How many pairs are there?",
                right="4",
                hint="Count the thick lines, or the nodes with a partner, and divide by two.",
                answer="Four: eight nodes have a partner. The nodes 1 and 10 have none, and they aren't neighbours.",
            ),
        ),
        TableStep(
            "example=petersen&tab=rounds&program=independent-set&at=52",
            "An *independent set* has no two neighbours in it. After the plan is made each channel has a pulse, "
            "channel 1 first. In the pulse of its channel a node joins the set (*in*), unless a neighbour has joined "
            "already. Until then it is *out*.",
            SaidExercise(
                name="in",
                asks="How many of the ten nodes are in the set?",
                right="3",
                hint="Count the nodes with *in* at them.",
                answer="Three: 3, 5 and 9. Each of the other seven has one of them as a neighbour, so no further node "
                "can join.",
            ),
        ),
        TableStep(
            "example=drops&tab=rounds&program=recolouring&at=24",
            "With *recolouring* the nodes choose their channels again, those with the greatest channel first. The plan "
            "of this row had three channels.",
            SaidExercise(
                name="fewer",
                asks="How many channels has the plan now?",
                right="2",
                hint="Which is the greatest number in a circle?",
                answer="Two. The nodes with channel 3 chose first, and took channel 1. Those with channel 2 chose "
                "next, and so on.",
            ),
        ),
    ],
)
REACTIONS = LessonSteps(
    "Without rounds",
    "What if a node reacts to each message as it comes, and no synchroniser makes rounds of it?",
    [
        TableStep(
            "example=triangle&tab=adversary&program=echo",
            "Node 1 wants to know how many nodes there are, and has sent a `wave` to both others. No synchroniser runs "
            "here: a node does something whenever it takes a message, as its file says. The file is next to the "
            "network, and the function that ran last is marked. Choose messages until nothing is left. At a node is "
            "its result.",
            SaidExercise(
                name="messages",
                asks="How many messages do the nodes send in all?",
                right="6",
                hint="How many messages go over each of the three edges?",
                answer="Six: over each edge two, whatever comes first. They are a wave and its echo, or two waves that "
                "meet.",
            ),
        ),
        TableStep(
            "example=triangle&tab=adversary&program=echo",
            "The order decides who is whose parent: a node takes the sender of the first wave that it hears. Choose "
            "the messages so that node 2 becomes the parent of node 3, and go on to the end. (`me.parent` is a port: "
            "it counts a node's neighbours, the lowest first, from 0.)",
            SeenExercise(
                name="tree",
                hint="Node 3 has to hear the wave of node 2 before it hears that of node 1.",
                answer="For example: node 2 takes the wave of node 1, and node 3 that of node 2. Then choose whatever "
                "you like. At the end node 2 counts 2, itself and node 3.",
            ),
        ),
        TableStep(
            "",
            "`forestlab explore triangle --program examples/algorithms/echo.py` plays all 20 orders of these events. "
            "They have three different ends, because there are three trees of parents.",
            SaidExercise(
                name="all",
                asks="In how many of the 20 orders does node 1 count three nodes?",
                right="20",
                hint="Which nodes does node 1 count, if node 2 is the parent of node 3? And if it isn't?",
                answer="In all 20. The file says so itself: its function `right` is asked at each end, and its "
                "function `always` in each state.",
            ),
        ),
        TableStep(
            "example=triangle&tab=adversary&program=exclusion",
            "Now each of three nodes wants to be *inside* once, and only one may be inside at a time. *node 1 acts* is "
            "a step that a node makes by itself: it asks all others, and later it leaves. Each question has a time, 1 "
            "more than the greatest that the node has heard. The earlier question goes first, and of two equal times "
            "the one of the lesser identifier. Let node 3, node 2 and node 1 act, in this order, before any message "
            "is taken. Then go on until a node is inside.",
            SaidExercise(
                name="first",
                asks="Which node is inside first?",
                right="1",
                hint="Which time has each of the three questions?",
                answer="Node 1. No node has heard a question when it asks, so all three have the time 1. Of equal "
                "times, that of the lesser identifier goes first.",
            ),
        ),
        TableStep(
            "example=triangle&tab=adversary&program=exclusion",
            "From the beginning again: get node 3 inside while node 1 asks, too.",
            SeenExercise(
                name="later",
                hint="Node 1 asks with a later time if it has heard the question of node 3 before.",
                answer="Let node 3 act, and the nodes 1 and 2 take its question. Now let node 1 act: it asks with the "
                "time 2. Node 3 takes both answers, and is inside.",
            ),
        ),
        TableStep(
            "example=two&tab=adversary&program=snapshot&without=fifo&dare=always",
            "Two nodes of a bank have 10 coins each, and each pays 3 of them when it likes. Node 1 begins a snapshot: "
            "a node notes its coins and sends a `marker`, and then notes what comes until the marker of the other one "
            "comes. Here links don't keep their order, so you may take a message that overtakes another one. Win the "
            "dare: some coins are missing, or are noted twice.",
            SeenExercise(
                name="coins",
                hint="Let the marker of node 1 overtake the coins that it has paid before.",
                answer="Let node 1 act twice: it pays 3 coins, and then begins the snapshot. Node 2 takes the marker "
                "before the coins, and node 1 takes the marker of node 2. Now 17 coins are noted of 20.",
            ),
        ),
        TableStep(
            "",
            "With links that keep their order, `explore` finds that this file is right in every order on two nodes, "
            "on three, and on a ring of four.",
            SaidExercise(
                name="follows",
                asks="What follows for a ring of five?",
                right="nothing: it has to be tried, too",
                picks=(
                    "it is right there, too",
                    "nothing: it has to be tried, too",
                    "it is wrong there",
                ),
                hint="Is anything proved of this file?",
                answer="Nothing. What `explore` says holds for the network that it has played. In one of the samples "
                "you can delete a line, and two nodes are right in every order, but three aren't: the lesson's page "
                "has it.",
            ),
        ),
    ],
)
LESSONS = (CHANNELS, FORESTS, COLOURS, MERGE, NO_CLOCK, SCHEDULES, MORE, REACTIONS)
LECTURE = (
    LecturePlace(
        "0 to 4",
        "ten transmitters",
        "example=petersen&tab=draw",
        "ask who chooses first. Click two joined nodes to part them, click two others to join them, and "
        "drag a node.",
    ),
    LecturePlace(
        "4 to 6",
        "check",
        "example=petersen&tab=check&plan=1_2_1_2",
        "let the class finish the plan. If the plan is wrong, the verdict names a node or an edge at which the "
        "plan is wrong.",
    ),
    LecturePlace(
        "6 to 8",
        "forests",
        "example=four_cycle&tab=rounds&at=1",
        "ask why the arrows never close a ring.",
    ),
    LecturePlace(
        "8 to 12",
        "from identifiers to colours",
        "example=petersen&tab=rounds&at=2&node=6",
        "step on to pulse 6, and ask which digit decides. Open *bit by bit*. Then leave out the rule `digit`, and ask "
        "what goes wrong.",
    ),
    LecturePlace(
        "12 to 14",
        "merge",
        "example=petersen&tab=rounds&at=13",
        "ask which nodes choose now, and why. Play to the end (*fast*), click node 6, and ask which messages decided "
        "its channel.",
    ),
    LecturePlace(
        "14 to 17",
        "no clock",
        "example=chain6&tab=run&slow=2-3&seed=7&beside=1",
        "ask how far apart the pulses of neighbours can be. Then tick the box *another order beside*, and a second run "
        "appears. Its events come in another order, but its payloads (the messages of the algorithm) are the same.",
    ),
    LecturePlace(
        "17 to 20",
        "you are the network",
        "example=path&tab=adversary",
        "let a student choose which event comes next. Then leave out the rule `safes`, and ask what goes wrong.",
    ),
)


def steps_in(lesson: int) -> Sequence[TableStep]:
    """The steps of a lesson by its number, from 1."""
    return LESSONS[lesson - 1].steps


def step_place(lesson: int, step: int = 1) -> str:
    """Where a step is done: at its own place, or at that of the step before which it goes on from."""
    return next(one.place for one in reversed(steps_in(lesson)[:step]) if one.place)


def values_in(place: str) -> dict[str, str]:
    """The values of a place of this table by their names, as they are written."""
    pairs = [part.partition("=") for part in place.split("&")]
    return {name: value for name, _, value in pairs}


def tab_of(place: str) -> TabName:
    named = values_in(place)["tab"]
    tab = next((tab for tab in TABS if tab == named), None)
    if tab is None:
        raise ValueError(f"{place}: no tab of the studio")
    return tab


def exercise_of(step: TableStep) -> Exercise | None:
    """The exercise of a step, as the page has it: without the right answer."""
    is_ = step.exercise
    if is_ is None:
        return None
    if isinstance(is_, SaidExercise):
        return Exercise(is_.name, "said", is_.asks, is_.picks, is_.hint, is_.answer)
    if isinstance(is_, SeenExercise):
        return Exercise(is_.name, "seen", "", (), is_.hint, is_.answer)
    values = values_in(step.place)
    pulse = int(values["at"]) + 1 if "at" in values else 0
    return Exercise(is_.name, "predicted", "", (), is_.hint, is_.answer, int(values["node"]), pulse)


def page_text(number: int) -> str:
    """The text of a lesson's page for the studio, with links to lessons that lead to those of the studio. The page has
    it between two rules: what is outside them speaks of the page. Without the rules it is all of the page, and without
    the page a sentence."""
    try:
        with open(
            os.path.join(TOP, "docs", "learn", f"LESSON_{number}.md"), encoding="utf-8"
        ) as file:
            page = file.read()
    except OSError:
        return "The text of this lesson isn't here."
    parts = page.split("\n\n---\n\n")
    text = parts[1] if len(parts) == 3 else page
    return re.sub(r"\]\(LESSON_(\d)\.md[^)]*\)", r"](#lesson=\1&step=1)", text)


def lessons() -> list[Lesson]:
    """All lessons, as the page has them."""
    return [
        Lesson(
            number,
            of.title,
            of.ask,
            [
                LessonStep(step.place, tab_of(step_place(number, k)), step.do, exercise_of(step))
                for k, step in enumerate(of.steps, 1)
            ],
            page_text(number),
        )
        for number, of in enumerate(LESSONS, 1)
    ]

"""The calls of the page by their names: what each asks, and what answers it."""
from collections.abc import Callable, Mapping
from dataclasses import dataclass
from typing import TypeVar

from forestplan.studio import (
    building,
    exercises,
    messages,
    networks,
    predictions,
    reactions,
    rounds,
    runs,
)
from forestplan.studio.call_progress import Tell
from forestplan.studio.fields import parsed_call
from forestplan.studio.session import Session

Asked = TypeVar("Asked")


@dataclass(frozen=True)
class Call:
    """What a call asks, which is a class of messages.py, and the function that answers it. `answer` takes what the page
    has sent: it is parsed, or refused with the name of a field."""

    asked: type
    function: Callable[..., object]
    answer: Callable[[Mapping[str, object], Session, Tell], object]


def answered(asked: type[Asked], function: Callable[[Asked, Session, Tell], object]) -> Call:
    """The call that asks this, and is answered by this function."""

    def answer(body: Mapping[str, object], session: Session, tell: Tell) -> object:
        return function(parsed_call(asked, body), session, tell)

    return Call(asked, function, answer)


CALLS = {
    "hello": answered(messages.HelloCall, networks.answer_hello),
    "address": answered(messages.AddressCall, networks.answer_address),
    "example": answered(messages.ExampleCall, networks.answer_example),
    "read": answered(messages.ReadCall, networks.answer_read),
    "make": answered(messages.MakeCall, networks.answer_make),
    "tidy": answered(messages.TidyCall, networks.answer_tidy),
    "drawing": answered(messages.DrawingCall, networks.answer_drawing),
    "plan": answered(messages.PlanCall, rounds.answer_plan),
    "check": answered(messages.CheckCall, rounds.answer_check),
    "rounds": answered(messages.RoundsCall, rounds.answer_rounds),
    "rounds_page": answered(messages.RoundsPageCall, rounds.answer_rounds_page),
    "why": answered(messages.WhyCall, rounds.answer_why),
    "broken": answered(messages.BrokenCall, rounds.answer_broken),
    "picture": answered(messages.PictureCall, rounds.answer_picture),
    "run": answered(messages.RunCall, runs.answer_run),
    "run_page": answered(messages.RunPageCall, runs.answer_run_page),
    "replay": answered(messages.ReplayCall, runs.answer_replay),
    "judge": answered(messages.JudgeCall, runs.answer_judge),
    "steps": answered(messages.StepsCall, runs.answer_steps),
    "file_text": answered(messages.FileCall, reactions.answer_file_text),
    "predict": answered(messages.PredictCall, predictions.answer_predict),
    "waits": answered(messages.WaitsCall, predictions.answer_waits),
    "sends": answered(messages.SendsCall, predictions.answer_sends),
    "exercise": answered(messages.ExerciseCall, exercises.answer_exercise),
    "build": answered(messages.BuildCall, building.answer_build),
    "built": answered(messages.BuiltCall, building.answer_built),
}

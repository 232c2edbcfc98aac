"""The adapter: it answers an editor's requests one by one, from a session of nrdb."""

from collections.abc import Callable, Sequence
from contextlib import ExitStack, closing
from typing import NamedTuple

from netrev.connection.beginnings import begin_words, begins_at
from netrev.connection.errors import unexpected
from netrev.connection.netrev import NetrevEndedError
from netrev.connection.scout import ScoutUnavailableError
from netrev.connection.shapes import LineRefusedError, StrangeReplyError
from netrev.messages import editors as texts
from netrev.recording.recording import NotARecordingError
from netrev.session.line_hints import hint
from netrev.session.session import UsageError
from netrev.system.interrupts import Interrupts, SearchInterruptedError, SessionAbandonedError
from netrev.text.plain import plain

from . import breakpoints, inspection
from .message_reader import CANCEL, Source
from .moves import Stop, text_of
from .progress import Work
from .target import DebugTarget, Launch
from .view.capabilities import CAPABILITIES
from .view.debuggee import debuggee
from .view.messages import Body, EditorGoneError, EditorStreams, Request, UnanswerableError
from .view.numbering import Numbering
from .view.presentation import maker_of, thread_of

CANCELLED, ENDS = "cancelled", "the editor ends the session"


def shown(text: str) -> str:
    """Text of several lines in the form in which editors show it."""
    return "\n".join(plain(line) for line in text.split("\n"))


class Response(NamedTuple):
    """The result of a request: the body of its response. After the response, the adapter reports a stop, an event, or
    the end of the session."""

    body: Body = {}
    stop: Stop | None = None
    event: str = ""
    ends: bool = False


class Adapter:
    """Serves one editor, whose requests come from `source`. No message can change `program`, the path of netrev."""

    def __init__(self, wire: EditorStreams, source: Source, program: str):
        self._wire, self._source, self._program = wire, source, program
        self._opened, self._interrupts, self._shows_progress = ExitStack(), Interrupts(), False
        self._target_or_none: DebugTarget | None = None
        self._numbering = Numbering()
        of_target = self._of_target
        self._answers: dict[str, Callable[[Request], Response]] = {
            "initialize": self._initialize, "launch": self._launch, "attach": self._attach,
            "configurationDone": self._configured, "terminate": self._terminate, "disconnect": self._disconnect,
            "restart": self._restart, "continue": self._continue, "reverseContinue": self._reverse_continue,
            "stepIn": self._step_in, "stepBack": self._step_back, "next": self._next, "stepOut": self._step_out,
            "pause": self._pause, "gotoTargets": self._goto_targets, "goto": self._goto,
            "setBreakpoints": of_target(breakpoints.set_lines),
            "setFunctionBreakpoints": of_target(breakpoints.set_functions),
            "setDataBreakpoints": of_target(breakpoints.set_data),
            "dataBreakpointInfo": of_target(breakpoints.data_info),
            "setExceptionBreakpoints": of_target(breakpoints.set_filters),
            "exceptionInfo": of_target(breakpoints.exception_info),
            "breakpointLocations": of_target(breakpoints.locations), "threads": of_target(inspection.threads),
            "stackTrace": of_target(inspection.stack), "scopes": of_target(inspection.scopes),
            "variables": of_target(inspection.variables), "readMemory": of_target(inspection.read_memory),
            "completions": of_target(inspection.completions), "setVariable": of_target(inspection.refuse_change),
            "setExpression": of_target(inspection.refuse_change), "evaluate": self._evaluate, CANCEL: self._cancel,
        }  # fmt: skip

    def serve(self, begun: Sequence[Request] = ()) -> None:
        """Answers `begun`, whose `initialize` already has an answer, and then requests until the editor disconnects."""
        with closing(self._source), self._opened:
            for request in begun:
                self._initialize(request) if request.command == "initialize" else self._guarded(request)
            while (request_or_none := self._source.request()) is not None:
                self._guarded(request_or_none)
                if request_or_none.command == "disconnect":
                    return

    def _guarded(self, request: Request) -> None:
        """Answers a request. An unexpected error is printed on the editor's console, and the session goes on."""
        try:
            self._answer(request)
        except EditorGoneError:
            raise
        except Exception as error:
            self._console(f"| {plain(unexpected(error))}\n")

    def _answer(self, request: Request) -> None:
        """Answers a request, and sends its result."""
        work = Work(self._wire, request, self._shows_progress)
        try:
            outcome = self._worked(request, work)
        except UnanswerableError as why:
            self._refused(work, shown(str(why)))
        except SearchInterruptedError:
            self._refused(work, CANCELLED)
        except (
            SessionAbandonedError
        ):  # (the request that ends the session comes next, and is answered before the session closes)
            work.refuses(ENDS)
            self._target_or_none = None
        except (NetrevEndedError, StrangeReplyError, ScoutUnavailableError) as why:
            reason = str(why) if isinstance(why, (StrangeReplyError, ScoutUnavailableError)) else "netrev has ended"
            work.refuses(plain(reason))
            self._end(reason)
        except EditorGoneError:
            raise
        except Exception as error:
            self._refused(work, plain(unexpected(error)))
        else:
            work.responds(outcome.body)
            if outcome.stop:
                self._stopped(outcome.stop)
            if outcome.event:
                self._wire.event(outcome.event)
            if outcome.ends:
                self._close()

    def _worked(self, request: Request, work: Work) -> Response:
        """The result of a request. While nrdb works on the request, a thread reads the editor's messages."""
        if self._source.ends(request):
            raise SearchInterruptedError
        if request.command in ("launch", "attach"):
            self._interrupts = Interrupts()
        if self._target_or_none:
            self._check_for_others(request)
            self._target_or_none.moves.tells = work.tells
        with self._source.work(request, self._interrupts):
            return self._outcome(request)

    def _check_for_others(self, request: Request) -> None:
        """Reports the new position if another front has moved the shared session."""
        with self._source.work(request, self._interrupts):
            moved = self._target.debuggee.others_moved()
        if moved is not None:
            self._stopped(Stop("goto", texts.SOMEONE_MOVED.format(position=moved)))

    def _refused(self, work: Work, why: str) -> None:
        """Reports that a request failed, and, if a move was answered early, that the session doesn't move."""
        if work.refuses(why):
            self._stopped(Stop("pause", why))

    def _outcome(self, request: Request) -> Response:
        """The outcome of a request; raises UnanswerableError if the request fails."""
        answer = self._answers.get(request.command)
        if answer is None:
            raise UnanswerableError(texts.UNKNOWN_REQUEST.format(command=request.command))
        try:
            return answer(request)
        except LineRefusedError as refused:
            advice = hint([request.command], str(refused))
            raise UnanswerableError(texts.NETREV_ANSWERED.format(fault=refused, hint=advice)) from None
        except (UsageError, NotARecordingError) as wrong:
            raise UnanswerableError(str(wrong)) from None

    @property
    def _target(self) -> DebugTarget:
        if self._target_or_none is None:
            raise UnanswerableError(texts.LAUNCH_FIRST)
        return self._target_or_none

    def _of_target(self, answer: Callable[[DebugTarget, Numbering, Request], Body]) -> Callable[[Request], Response]:
        """The answer to a request that needs an open recording and moves nothing."""
        return lambda request: Response(answer(self._target, self._numbering, request))

    def _stopped(self, stop: Stop) -> None:
        """Reports a new position, and the reason for the stop."""
        target = self._target
        target.stop = stop
        target.looks.handles.forget()
        body: Body = {"reason": stop.reason, "description": plain(stop.says), "allThreadsStopped": True}
        if text := text_of(stop, target.debuggee.recording):
            body["text"] = plain(text)
        if stop.marks:
            body["hitBreakpointIds"] = list(stop.marks)
        self._console(target.debuggee.printer.take())
        self._wire.event("stopped", threadId=thread_of(target.debuggee.maker_here()), **body)

    def _console(self, text: str) -> None:
        if text:
            self._wire.event("output", category="console", output=text)

    def _end(self, why: str) -> None:
        """Ends the session, even in the middle of a request to netrev."""
        self._console(f"| {plain(why)}\n")
        self._close()
        self._wire.event("terminated")

    def _close(self) -> None:
        self._target_or_none = None
        self._opened.close()

    # --- the beginning and the end

    def _initialize(self, request: Request) -> Response:
        self._numbering = Numbering(0 if request.arguments.get("linesStartAt1") is False else 1)
        self._shows_progress = request.arguments.get("supportsProgressReporting") is True
        return Response(CAPABILITIES)

    def _launch(self, request: Request) -> Response:
        return self._begin(Launch.of(request))

    def _attach(self, request: Request) -> Response:
        return self._begin(Launch.of_attach(request))

    def _begin(self, launch: Launch) -> Response:
        self._close()
        debugged = self._opened.enter_context(
            debuggee(self._program, launch.recording, self._interrupts, launch.address)
        )
        debugged.say_nothing_yet()
        if debugged.recording.lines.fault:
            self._console(f"| {plain(debugged.recording.lines.why_unused(launch.recording))}\n")
        if words := begin_words(debugged.recording):
            self._console(f"| {words}\n")
        self._target_or_none = DebugTarget(debugged, launch, self._interrupts)
        self._target.stop = self._target.moves.goto(launch.position(debugged), "entry")
        return Response(event="initialized")

    def _cancel(self, request: Request) -> Response:
        return Response()  # (the cancelled work was stopped when the request arrived, or has finished)

    def _configured(self, request: Request) -> Response:
        return Response(stop=self._target.stop)

    def _restart(self, request: Request) -> Response:
        return Response(stop=self._target.moves.goto(begins_at(self._target.debuggee.recording), "entry"))

    def _terminate(self, request: Request) -> Response:
        return Response(event="terminated", ends=True)

    def _disconnect(self, request: Request) -> Response:
        return Response(ends=True)

    # --- moves

    def _continue(self, request: Request) -> Response:
        return Response({"allThreadsContinued": True}, self._target.moves.run(True))

    def _reverse_continue(self, request: Request) -> Response:
        return Response({}, self._target.moves.run(False))

    def _step_in(self, request: Request) -> Response:
        return Response(stop=self._target.moves.step("stepi"))

    def _step_back(self, request: Request) -> Response:
        return Response(stop=self._target.moves.step("reverse-stepi"))

    def _next(self, request: Request) -> Response:
        return Response(stop=self._target.moves.next_of(maker_of(request.whole_number("threadId"))))

    def _step_out(self, request: Request) -> Response:
        goroutine = maker_of(request.whole_number("threadId"))
        if goroutine is None:
            raise UnanswerableError(texts.NO_CALLS)
        return Response(stop=self._target.moves.out_of(goroutine))

    def _pause(self, request: Request) -> Response:
        return Response(stop=Stop("pause", f"at {self._target.debuggee.position}"))

    def _goto_targets(self, request: Request) -> Response:
        line = self._numbering.requested_line(request, "line")
        if not breakpoints.is_the_recording(self._target, request):
            return Response({"targets": breakpoints.targets(self._target, self._numbering, request)})
        step = self._target.debuggee.step_at(line)
        if step is None:
            raise UnanswerableError(texts.NO_STEP)
        position = step.number - 1
        named = {
            "id": position,
            "label": f"position {position}, before {step.kind}",
            "line": self._numbering.to(step.line),
        }
        return Response({"targets": [named]})

    def _goto(self, request: Request) -> Response:
        position = request.whole_number("targetId")
        if not 0 <= position <= self._target.debuggee.length:
            raise UnanswerableError(texts.HAS_STEPS.format(steps=self._target.debuggee.length))
        return Response(stop=self._target.moves.goto(position))

    def _evaluate(self, request: Request) -> Response:
        text, context = request.text("expression"), request.arguments.get("context")
        return self._typed(text) if context == "repl" else Response(inspection.value(self._target, text, context))

    def _typed(self, text: str) -> Response:
        """Runs a line of nrdb that was typed in the console."""
        target, before = self._target, self._target.debuggee.position
        goes_on = target.debuggee.session.run(text)
        output = target.debuggee.printer.take().rstrip("\n")
        body: Body = {"result": output, "variablesReference": 0}
        if not goes_on:
            self._close()
            return Response(body, event="terminated")
        moved = Stop("goto", f"at {target.debuggee.position}") if target.debuggee.position != before else None
        return Response(body, moved)

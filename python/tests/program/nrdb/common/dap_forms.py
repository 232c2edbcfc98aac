"""The forms of an adapter's messages in the Debug Adapter Protocol's published specification: their required fields,
optional fields (`?`), and types. A message has no other fields."""

from collections.abc import Iterable
from typing import Any

Form = Any  # a type, a list of one form, a tuple of forms of which one fits, or an object's fields by name

MESSAGE = {"id": int, "format": str, "variables?": dict, "sendTelemetry?": bool, "showUser?": bool, "url?": str}
SOURCE = {
    "name?": str, "path?": str, "sourceReference?": int, "presentationHint?": str, "origin?": str,
}  # fmt: skip
BREAKPOINT = {
    "id?": int, "verified": bool, "message?": str, "source?": SOURCE, "line?": int, "column?": int,
    "endLine?": int, "endColumn?": int,
}  # fmt: skip
VARIABLE = {
    "name": str, "value": str, "type?": str, "evaluateName?": str, "variablesReference": int,
    "namedVariables?": int, "indexedVariables?": int, "memoryReference?": str,
}  # fmt: skip
FRAME = {
    "id": int, "name": str, "source?": SOURCE, "line": int, "column": int, "presentationHint?": str,
}  # fmt: skip
SCOPE = {"name": str, "presentationHint?": str, "variablesReference": int, "expensive": bool}
FILTER = {"filter": str, "label": str, "description?": str, "default?": bool, "supportsCondition?": bool}
CAPABILITIES = {
    "supportsConfigurationDoneRequest?": bool, "supportsFunctionBreakpoints?": bool, "supportsConditionalBreakpoints?": bool,
    "supportsHitConditionalBreakpoints?": bool, "supportsLogPoints?": bool, "supportsReadMemoryRequest?": bool,
    "supportsCancelRequest?": bool, "supportsDataBreakpoints?": bool, "supportsBreakpointLocationsRequest?": bool, "supportsExceptionInfoRequest?": bool,
    "exceptionBreakpointFilters?": [FILTER], "supportsStepBack?": bool, "supportsGotoTargetsRequest?": bool,
    "supportsRestartRequest?": bool, "supportsTerminateRequest?": bool, "supportsEvaluateForHovers?": bool,
    "supportsCompletionsRequest?": bool, "completionTriggerCharacters?": [str],
}  # fmt: skip
BREAKPOINTS = {"breakpoints": [BREAKPOINT]}

BODIES: dict[str, Form] = {
    "initialize": CAPABILITIES,
    "launch": {}, "attach": {}, "cancel": {}, "configurationDone": {}, "terminate": {}, "disconnect": {}, "restart": {},
    "continue": {"allThreadsContinued?": bool},
    "reverseContinue": {}, "stepIn": {}, "stepBack": {}, "next": {}, "stepOut": {}, "pause": {}, "goto": {},
    "gotoTargets": {"targets": [{"id": int, "label": str, "line": int, "column?": int}]},
    "setBreakpoints": BREAKPOINTS, "setFunctionBreakpoints": BREAKPOINTS, "setDataBreakpoints": BREAKPOINTS,
    "setExceptionBreakpoints": {"breakpoints?": [BREAKPOINT]},
    "dataBreakpointInfo": {
        "dataId": (str, type(None)), "description": str, "accessTypes?": [str], "canPersist?": bool,
    },
    "exceptionInfo": {"exceptionId": str, "description?": str, "breakMode": str},
    "breakpointLocations": {"breakpoints": [{"line": int, "column?": int, "endLine?": int, "endColumn?": int}]},
    "threads": {"threads": [{"id": int, "name": str}]},
    "stackTrace": {"stackFrames": [FRAME], "totalFrames?": int},
    "scopes": {"scopes": [SCOPE]},
    "variables": {"variables": [VARIABLE]},
    "evaluate": {"result": str, "type?": str, "variablesReference": int, "memoryReference?": str},
    "readMemory": {"address": str, "data?": str, "unreadableBytes?": int},
    "completions": {"targets": [{"label": str, "start?": int, "length?": int}]},
}  # fmt: skip

EVENTS: dict[str, Form] = {
    "initialized": {}, "terminated": {},
    "output": {"category?": str, "output": str},
    "progressStart": {"progressId": str, "title": str, "requestId?": int, "cancellable?": bool, "message?": str, "percentage?": int},
    "progressUpdate": {"progressId": str, "message?": str, "percentage?": int},
    "progressEnd": {"progressId": str, "message?": str},
    "stopped": {
        "reason": str, "description?": str, "threadId?": int, "preserveFocusHint?": bool, "text?": str,
        "allThreadsStopped?": bool, "hitBreakpointIds?": [int],
    },
}  # fmt: skip

HINTS = ("normal", "label", "subtle")
CATEGORIES = ("console", "important", "stdout", "stderr")


def misfit(value: Any, form: Form, where: str) -> str:
    """The place at which a value doesn't fit a form; empty if it fits."""
    if isinstance(form, tuple):
        return "" if any(not misfit(value, item, where) for item in form) else f"{where} is {value!r}"
    if isinstance(form, list):
        if not isinstance(value, list):
            return f"{where} is no list"
        return first_of(misfit(item, form[0], f"{where}[{at}]") for at, item in enumerate(value))
    if isinstance(form, dict):
        return misfit_of_object(value, form, where)
    is_right = isinstance(value, form) and not (form is int and isinstance(value, bool))
    return "" if is_right else f"{where} is {value!r}, and no {form.__name__}"


def misfit_of_object(value: Any, form: dict[str, Form], where: str) -> str:
    """The place at which an object doesn't fit a form; empty if it fits."""
    if not isinstance(value, dict):
        return f"{where} is no object"
    fields = {name.rstrip("?"): item for name, item in form.items()}
    missing = [name for name in form if not name.endswith("?") and name not in value]
    unknown = [name for name in value if name not in fields]
    if missing or unknown:
        return f"{where}: {missing} missing, {unknown} unknown"
    return first_of(misfit(item, fields[name], f"{where}.{name}") for name, item in value.items())


def first_of(output: Iterable[str]) -> str:
    """The first text that isn't empty; empty if there is none."""
    return next(filter(None, output), "")


def misfit_of_message(message: dict[str, Any]) -> str:
    """The part of an adapter's message that has the wrong form; empty if all parts are right."""
    head = {"seq": int, "type": str}
    if message.get("type") == "event":
        form = {**head, "event": str, "body?": EVENTS.get(message.get("event", ""), object())}
    elif message.get("success"):
        form = {
            **head,
            "request_seq": int,
            "command": str,
            "success": bool,
            "body?": BODIES.get(message["command"], object()),
        }
    else:
        refusal = {"error?": MESSAGE}
        form = {**head, "request_seq": int, "command": str, "success": bool, "message": str, "body?": refusal}
    if not all(isinstance(item, (type, tuple, list, dict)) for item in form.values()):
        return f"{message} has a name that the protocol hasn't"
    return misfit(message, form, str(message.get("event") or message.get("command")))

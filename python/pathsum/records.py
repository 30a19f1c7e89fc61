"""Answers and errors as plain records, which docs/JSON.md describes."""
from __future__ import annotations

from typing import Any, Dict, Optional, Sequence

from .answers import Accepted, Answer, Input, Left, Limit, No, Rejected, RemainingSum, Shared, Unknown, Yes
from .errors import Fault, PathsumError, RefusedError
from .scripts import Response

SCHEMA = 1
"""Rises where a field changes its meaning or goes; new fields alone do not raise it."""


def record_of(answer: Answer) -> Dict[str, Any]:
    record: Dict[str, Any] = {
        "schema": SCHEMA,
        "question": answer.question,
        "verdict": answer.verdict,
        "status": answer.status,
        "first": answer.first,
        "second": answer.second,
        "line": answer.line,
        "proved": answer.proved,
        "seconds": round(answer.seconds, 3),
    }
    if isinstance(answer, Yes):
        record["phase"] = None if answer.phase is None else str(answer.phase)
        record["derivation"] = answer.derivation
    elif isinstance(answer, No):
        record["input"] = _input(answer.input)
        record["second_input"] = None if answer.second_input is None else _input(answer.second_input)
        record["behind"] = answer.behind
        record["phase"] = None if answer.phase is None else str(answer.phase)
    elif isinstance(answer, Unknown):
        record["remaining"] = None if answer.remaining is None else _sum(answer.remaining)
        record["limit"] = answer.limit and _limit(answer.limit)
    elif isinstance(answer, Rejected):
        record.update(number=answer.number, reason=answer.reason, source=answer.source)
    elif isinstance(answer, Left):
        record["remaining"] = _sum(answer.remaining)
    if not isinstance(answer, (Accepted, Rejected, Left)):
        record["shared"] = _shared(getattr(answer, "shared", None))
    return record


def _input(given: Input) -> Dict[str, Any]:
    qubits = [{"register": qubit.register, "index": qubit.index, "value": bit} for qubit, bit in given]
    return {"bits": given.bits, "qubits": qubits}


def _sum(remaining: RemainingSum) -> Dict[str, Any]:
    return {
        "text": remaining.text,
        "scale": remaining.scale,
        "variables": remaining.variables,
        "terms": remaining.terms,
    }


def _limit(limit: Limit) -> Dict[str, Any]:
    return {"what": limit.what, "count": limit.count, "allowed": limit.allowed}


def _shared(shared: Optional[Shared]) -> Optional[Dict[str, Any]]:
    return shared and {
        "front": shared.front,
        "back": shared.back,
        "first_lines": list(shared.first_lines),
        "second_lines": list(shared.second_lines),
        "exchanged": shared.exchanged,
    }


def error_record(error: PathsumError) -> Dict[str, Any]:
    """What stands in the place of an answer where there is none."""
    fault = error.fault if isinstance(error, RefusedError) else None
    return {
        "schema": SCHEMA,
        "verdict": "refused" if fault else "error",
        "status": error.status,
        "message": str(error) if fault is None else f"{fault.name}: {fault.message}",
        "fault": fault and fault_record(fault),
    }


def fault_record(fault: Fault) -> Dict[str, Any]:
    return {
        "name": fault.name,
        "file": fault.file,
        "line": fault.line,
        "column": fault.column,
        "source": fault.source,
        "message": fault.message,
        "advice": fault.advice,
    }


NUMBERS = ("version", "missing", "latest", "length", "entry", "first_qubits", "second_qubits", "total")
"""The fields of a response that stand in its record as they are, where the reply has them."""


def response_record(response: Response) -> Dict[str, Any]:
    record: Dict[str, Any] = {
        "schema": SCHEMA,
        "line": response.command.line,
        "session": response.session,
        "command": str(response.command),
        "verdict": response.verdict,
        "status": response.status,
        "kind": response.kind,
        "raw": response.raw,
    }
    record.update({name: getattr(response, name) for name in NUMBERS if getattr(response, name) is not None})
    if response.earlier is not None:
        record["earlier"] = response.earlier.line
    if response.items is not None:
        record["items"] = [list(item) for item in response.items]
    if response.kind == "sum":
        record["sum"] = response.sum and _sum(response.sum)
        record["limit"] = response.limit and _limit(response.limit)
    if response.answer is not None:
        record["answer"] = record_of(response.answer)
    if response.fault is not None:
        record["fault"] = fault_record(response.fault)
    return record


def script_record(responses: Sequence[Response], counts: Dict[str, int], left: int, status: int) -> Dict[str, Any]:
    """What came of a script: of `left` commands nothing, as the journal was full."""
    commands = [response_record(response) for response in responses]
    return {"schema": SCHEMA, "commands": commands, "counts": counts, "left": left, "status": status}

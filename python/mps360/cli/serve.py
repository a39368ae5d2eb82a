"""Answers many requests in one process: a JSON object on each line of standard input, a JSON object on each line of standard output.

usage: solve --serve [--program FILE] [--checker FILE]

A request has the model, as {"file": PATH} or {"text": MPS FILE}, and what it wants:
  {"id": .., "do": "solve", "file": "plan.mps", "read": {"relax": true}, "ranging": true, "with": ["clp"], "seconds": 60}
  {"id": .., "do": "attest", "file": "plan.mps", "solution": "plan.sol"}
do is solve where it isn't there; read has the words of mps360.read_mps; basis names a file at which the run begins. id is handed back as it is.

A reply has the id and either "answer", which is the document of solve --json (docs/listing.schema.json), with "code", or "attestation", or "error": its kind
(refused, no program, can't run, no listing, wrong request, can't read), the cause, and where they are known file, line, column and word. A request that
fails ends nothing: the next line is read. It ends with 0 at the end of its input, 64 for wrong use, 73 where a reply can't be written."""
from __future__ import annotations

import dataclasses
import io
import json
import sys
from collections.abc import Callable
from typing import Any

from mps360 import api
from mps360.cli.options import Parser, ending
from mps360.errors import CantRun, NoProgram, Refused
from mps360.listings.read import NoListing
from mps360.listings.write import Refused as Unfit
from mps360.model import Model
from mps360.output import command

NAME = "solve --serve"
MOST_LINE = 300_000_000
KINDS: tuple[tuple[type[Exception], str], ...] = ((Refused, "refused"), (Unfit, "refused"), (NoProgram, "no program"), (CantRun, "can't run"),
                                                  (NoListing, "no listing"), (OSError, "can't read"))
ASKED = {"id", "do", "file", "text", "read", "ranging", "with", "seconds", "basis", "solution"}
READ = {"form", "numbers", "doubles", "relax", "negative_up", "marker_upper", "blank_set", "constant", "sense", "objective", "rhs", "ranges", "bounds"}


class WrongRequest(Exception):
    "a line that isn't a request"


def model_of(request: dict[str, Any]) -> Model:
    "the model of a request"
    words = request.get("read", {})
    if not isinstance(words, dict) or not words.keys() <= READ:
        raise WrongRequest(f"read is an object of {', '.join(sorted(READ))}")
    if ("file" in request) == ("text" in request):
        raise WrongRequest("a request has a file or a text")
    source = request["file"] if "file" in request else io.BytesIO(str(request["text"]).encode("utf-8"))
    return api.read_mps(source, **words)


def solved(request: dict[str, Any], program: str | None, checker: str | None) -> dict[str, Any]:
    "the reply to do solve"
    model = model_of(request)
    basis = api.read_basis(request["basis"], model) if "basis" in request else None
    answer = api.solve(model, ranging=bool(request.get("ranging", False)), basis=basis, with_=request.get("with"), seconds=request.get("seconds"),
                       program=program, checker=checker)
    return {"code": answer.code, "answer": answer.as_json()}


def attested(request: dict[str, Any], checker: str | None) -> dict[str, Any]:
    "the reply to do attest"
    model = model_of(request)
    if "solution" not in request:
        raise WrongRequest("attest wants a solution, the path of a file")
    found = api.attest(model, api.read_solution(request["solution"], model), seconds=request.get("seconds"), checker=checker)
    return {"code": found.code, "attestation": {key: value for key, value in dataclasses.asdict(found).items() if key not in ("job", "listing")}}


def fault(cause: Exception) -> dict[str, Any]:
    "what is said of a request that failed"
    kind = next((word for of, word in KINDS if isinstance(cause, of)), "wrong request")
    cause_words = cause.cause if isinstance(cause, Refused) else f"{cause.strerror}: {cause.filename}" if isinstance(cause, OSError) and cause.filename else str(cause)
    told: dict[str, Any] = {"kind": kind, "cause": cause_words}
    if isinstance(cause, Refused):
        told |= {"file": cause.file, "line": cause.line, "column": cause.column, "word": cause.word if isinstance(cause.word, str) else None}
    return {"error": told}


def reply(line: str, program: str | None, checker: str | None) -> dict[str, Any]:
    "the reply to a line"
    request: Any = None
    try:
        request = json.loads(line)
        if not isinstance(request, dict) or not request.keys() <= ASKED:
            raise WrongRequest(f"a request is an object of {', '.join(sorted(ASKED))}")
        does: dict[str, Callable[[], dict[str, Any]]] = {"solve": lambda: solved(request, program, checker), "attest": lambda: attested(request, checker)}
        if request.get("do", "solve") not in does:
            raise WrongRequest(f"do is {' or '.join(does)}")
        made = does[request.get("do", "solve")]()
    except (Refused, Unfit, NoProgram, CantRun, NoListing, OSError, WrongRequest, ValueError, TypeError, RecursionError) as cause:
        made = fault(cause)
    return {"id": request.get("id") if isinstance(request, dict) else None, **made}


@command(NAME)
def main(words: list[str] | None = None) -> int:
    "the command; its status"
    parser = Parser(ending(lambda message: print(f"{NAME}: {message}", file=sys.stderr)))
    parser.add_argument("--serve", action="store_true")
    parser.add_argument("--program")
    parser.add_argument("--checker")
    options = parser.parse_args(words)
    while line := sys.stdin.buffer.readline(MOST_LINE):
        if line.strip():
            sys.stdout.write(json.dumps(reply(line.decode("utf-8", "replace"), options.program, options.checker), allow_nan=False).replace("\x7f", "\\u007f") + "\n")
            sys.stdout.flush()
    return 0

"""Solves a linear program by HiGHS, through scipy 1.9 or later, in a process of its own. It imports nothing of mps360, so that any Python may run it.

Standard input is JSON, numbers in double precision: {"cost": [n], "rows": [[m lower], [m upper]], "columns": [[n lower], [n upper]], "entries": [[row],
[column], [value]], "seconds": s or null}; a limit that isn't there is null; the cost is to be least. Standard output is {"status": 0, "rows": [[m values],
[m marginals]], "columns": [[n values], [n marginals]]}, or another status of scipy.optimize.linprog with its "message". It ends with 0, or with 1
where scipy refuses the problem or isn't there."""
from __future__ import annotations

import json
import sys
from typing import Any


def constraints(problem: dict[str, Any], sparse: Any, matrix: Any) -> tuple[dict[str, Any], list[int], list[int]]:
    "the rows as scipy wants them: those that are at most a number, and those that are equal to one; and which row each is of"
    lower, upper = problem["rows"]
    same = [k for k, (low, high) in enumerate(zip(lower, upper)) if low is not None and low == high]
    equal = set(same)
    least = [k for k, low in enumerate(lower) if low is not None and k not in equal]
    most = [k for k, high in enumerate(upper) if high is not None and k not in equal]
    above = sparse.vstack([matrix[most], -matrix[least]]) if most or least else None
    return {"A_ub": above, "b_ub": [upper[k] for k in most] + [-lower[k] for k in least] if most or least else None,
            "A_eq": matrix[same] if same else None, "b_eq": [lower[k] for k in same] if same else None}, most + least, same


def solved(problem: dict[str, Any]) -> dict[str, Any]:
    "the answer of HiGHS"
    import numpy
    from scipy import optimize, sparse
    m, n = len(problem["rows"][0]), len(problem["cost"])
    i, j, values = problem["entries"]
    matrix = sparse.csr_matrix((values, (i, j)), shape=(m, n))
    parts, between, same = constraints(problem, sparse, matrix)
    limited = {"time_limit": problem["seconds"]} if problem.get("seconds") else {}
    found = optimize.linprog(problem["cost"], bounds=list(zip(*problem["columns"])), method="highs-ds", options=limited, **parts)
    if found.status != 0:
        return {"status": int(found.status), "message": str(found.message)}
    marginals = numpy.zeros(m)
    if between:
        numpy.add.at(marginals, between, found.ineqlin.marginals)
    if same:
        marginals[same] = found.eqlin.marginals
    return {"status": 0, "rows": [(matrix @ found.x).tolist(), marginals.tolist()],
            "columns": [found.x.tolist(), (found.lower.marginals + found.upper.marginals).tolist()]}


def main() -> int:
    "reads a problem, and prints its answer"
    try:
        answer = solved(json.load(sys.stdin))
    except (ImportError, ValueError, KeyError, TypeError) as cause:
        print(f"highs: {type(cause).__name__}: {cause}", file=sys.stderr)
        return 1
    json.dump(answer, sys.stdout)
    return 0


if __name__ == "__main__":
    sys.exit(main())

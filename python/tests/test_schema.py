"The JSON of listings by docs/listing.schema.json, by a validator of our own and, where it is installed, by jsonschema; and that both refuse what is spoiled."
import json

import places
import pytest
from mps360.listings import tables
from mps360.listings.read import parse
from schema import SCHEMA, violations

LISTINGS = sorted([*places.EXAMPLES.glob("*.listing"), *places.DATA.glob("*.listing")])
MORE = ("STOP 12 DECK FAULT 6 CARD 12\n", LISTINGS[0].read_text()[:200].rpartition("\n")[0] + "\n",
        "PRIMAL INFEASIBLE STEPS 0 CROSSED 3 UNCHECKED ADD 1 2\nEND 1\n", "STOP 10 VERB FAULT 15 CARD 4\n    1 COST     -1/3\n    2 X        1\n",
        "STOP 10 VERB FAULT 16 CARD 4 VARIABLE 2\n", f"PRIMAL OPTIMAL STEPS 0 OBJECTIVE {10**400} CHECKED\nEND 0\n")


def is_lawful(document):
    "by the validator of our own"
    return not any(True for _ in violations(document, SCHEMA))


def by_jsonschema():
    "that of jsonschema"
    try:
        import jsonschema
    except ImportError:
        pytest.skip("jsonschema isn't installed")
    jsonschema.Draft202012Validator.check_schema(SCHEMA)
    return jsonschema.Draft202012Validator(SCHEMA).is_valid


def documents_of(text):
    "the JSON of a listing, without decimals and with them"
    yield tables.document(parse(text))
    whole = tables.document(parse(text))
    tables.add_decimals(whole)
    yield whole


def spoiled(whole):
    "copies of a lawful document, each with one thing wrong"
    def at(path, value):
        copy = json.loads(json.dumps(whole))
        place = copy
        for step in path[:-1]:
            place = place[step]
        if value is None:
            del place[path[-1]]
        else:
            place[path[-1]] = value
        return copy
    row = ("reports", 4, "rows", 1)
    for path, value in ((("format",), "x"), (("version",), 2), (("version",), True), (("result", "objective"), 1511.75),
                        (("result", "verdict"), "best"),
                        (("result", "status"), None), (("end", "status"), "0"), (("more",), 1), (("reports", 3, "objective"), "6047/0"),
                        (("reports", 3, "checked"), 1),
                        ((*row, "at"), "XX"), ((*row, "dual"), "4.06"), ((*row, "dual"), None), ((*row, "number"), 0), ((*row, "more"), "1"),
                        (("reports", 4, "mark"), "best"),
                        (("reports", 2, "sense"), "max")):
        yield path, at(path, value)


def first():
    return tables.document(parse((places.EXAMPLES / "first.listing").read_text()))


def test_there_are_listings():
    assert len(LISTINGS) > 20


TEXTS = {**{path.name: path.read_text() for path in LISTINGS}, **{f"more {k}": text for k, text in enumerate(MORE)}}


@pytest.mark.parametrize("name", TEXTS)
def test_each_listing_is_lawful(name):
    text = TEXTS[name]
    assert all(is_lawful(document) for document in documents_of(text))


def test_each_listing_is_lawful_by_jsonschema():
    lawful = by_jsonschema()
    assert all(lawful(document) for text in (*(path.read_text() for path in LISTINGS), *MORE) for document in documents_of(text))


@pytest.mark.parametrize("path, document", list(spoiled(first())))
def test_what_is_spoiled_is_refused(path, document):
    assert not is_lawful(document), path


def test_what_is_spoiled_is_refused_by_jsonschema():
    lawful = by_jsonschema()
    assert [path for path, document in spoiled(first()) if lawful(document)] == []


def test_each_part_has_a_description():
    assert [key for key, part in SCHEMA["$defs"].items() if "description" not in part and key != "limit"] == []

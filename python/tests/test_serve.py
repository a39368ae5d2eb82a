"solve --serve: requests on lines, replies on lines; one that fails ends nothing."
import json
import subprocess

import places
import programs_at_hand

GLASS = str(places.EXAMPLES / "glass.mps")


def served(tmp_path, *requests):
    "the replies to these lines, and the exit status"
    lines = "".join((request if isinstance(request, str) else json.dumps(request)) + "\n" for request in requests)
    words = [places.SCRIPTS / "solve", "--serve", "--program", programs_at_hand.solver(tmp_path), "--checker", programs_at_hand.checker(tmp_path)]
    ended = subprocess.run(words, input=lines, capture_output=True, text=True, check=False, timeout=120)
    assert not ended.stderr
    return [json.loads(line) for line in ended.stdout.splitlines()], ended.returncode


def test_requests(tmp_path):
    "two answers, of a file and of a text, and an attestation"
    text = "NAME T\nROWS\n N COST\n G NEED\nCOLUMNS\n X COST 2 NEED 4\nRHS\n B NEED 1\nENDATA\n"
    solution = tmp_path / "glass.json"
    solution.write_text(json.dumps({"answer": "optimal", "columns": {"doors": 2, "windows": 6}, "prices": {"plant_2_hours": "3/2", "plant_3_hours": 1}}), encoding="ascii")
    replies, status = served(tmp_path, {"id": "a", "file": GLASS, "ranging": True}, {"id": 2, "text": text}, "",
                             {"id": 3, "do": "attest", "file": GLASS, "solution": str(solution)})
    assert status == 0 and [reply["id"] for reply in replies] == ["a", 2, 3]
    assert replies[0]["code"] == 0 and replies[0]["answer"]["result"]["objective"] == "36"
    assert any(report["report"] == "ranges" for report in replies[0]["answer"]["reports"])
    assert replies[1]["answer"]["result"]["objective"] == "1/2"
    assert replies[2]["attestation"]["attested"] is True


def test_faults_end_nothing(tmp_path):
    "each gets its reply with its kind and place, and the next line is read"
    wrong = "NAME T\nROWS\n N COST\nCOLUMNS\n X COST 1 PROFIT 2\nENDATA\n"
    replies, status = served(tmp_path, "no JSON", {"id": 1}, {"id": 2, "text": wrong}, {"id": 3, "file": str(tmp_path / "none.mps")}, {"id": 4, "file": GLASS, "do": "guess"},
                             {"id": 5, "file": GLASS, "read": {"relax": True, "path": "x"}}, [1], {"id": 6, "file": GLASS})
    assert status == 0
    assert [reply.get("error", {}).get("kind") for reply in replies] == ["wrong request", "wrong request", "refused", "can't read", "wrong request", "wrong request",
                                                                         "wrong request", None]
    assert (replies[2]["error"]["line"], replies[2]["error"]["column"], replies[2]["error"]["word"]) == (5, 11, "PROFIT")
    assert replies[-1]["answer"]["result"]["verdict"] == "optimal"

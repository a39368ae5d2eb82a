"The table of rules, docs/rules.txt: how it is read, what is told of a row that isn't so, and that each test that it names is there."
import pytest
import rules
from calls import call
from places import DEV

ROW = """# a table of one rule
[Cards and decks]

how bytes are cut into cards
    definition  card_definitions/specs/Cards  cards_of
    fault       card_definitions/specs/Cards  card_fault card NotPrintable CardTooLong
    contract    card_reader/src/read  read_job
    code        card_reader/src/cut  cut_cards
    test        job_tests/src/tests/faults  "card of 81 bytes"
    test        job_tests/src/tests/runs  long_jobs_are_refused
    test        examples/faults  card-3
    example     card_definitions/proofs/Examples  three_cards
                long_card
"""


def told(text):
    "what is told of a table, without the faults that stand in no row"
    return [what for number, what in rules.wrong_rules(rules.read(text)) if number > 1]


def test_a_row_is_read():
    rule, = rules.read(ROW)
    assert (rule.part, rule.title, rule.number) == ("Cards and decks", "how bytes are cut into cards", 4)
    assert [line.kind for line in rule.lines] == ["definition", "fault", "contract", "code", "test", "test", "test", "example"]
    assert rule.of("test")[0].names == ['"card of 81 bytes"'] and rule.of("example")[0].names == ["three_cards", "long_card"] and not told(ROW)


def test_a_row_is_shown():
    shown = rules.section(rules.read(ROW)).splitlines()
    assert shown[0] == "Of 1 rules 1 are tried by a test, 0 by worked examples of their definitions alone, and 0 are proved alone."
    rule, definition, contract, code, test = [cell.strip() for cell in shown[-1].split("|")[1:-1]]
    assert rule == "how bytes are cut into cards" and definition.startswith("[`cards_of`](../crates/card_definitions/specs/Cards.antt)<br>card fault 4 ")
    assert (contract, code) == ("[`read_job`](../crates/card_reader/src/read.rt)", "[`cut_cards`](../crates/card_reader/src/cut.rt)")
    assert test.split("<br>")[0] == '[job_tests/faults](../crates/job_tests/src/tests/faults.rt): "card of 81 bytes"'
    assert "[card-3](../examples/faults/card-3.job)" in test and "computed: [card_definitions/Examples]" in test


def test_a_rule_without_tests_is_proved_alone():
    lines = [line for line in ROW.splitlines() if " test " not in line and " example " not in line]
    assert rules.section(rules.read("\n".join(lines))).endswith("| proved alone |")


@pytest.mark.parametrize("old, new, wanted", (
    ("cards_of", "cards_off", "cards_off isn't defined in crates/card_definitions/specs/Cards.antt, or ensures nothing"),
    ("card_reader/src/read", "card_reader/src/red", "there is no crates/card_reader/src/red.rt"),
    ("NotPrintable CardTooLong", "CardTooLong NotPrintable", "card_fault tests NotPrintable before the fault above"),
    ("NotPrintable", "NotReadable", "there is no card fault NotReadable"),
    ('"card of 81 bytes"', '"card of 82 bytes"', 'crates/job_tests/src/tests/faults.rt has no test "card of 82 bytes"'),
    ("long_jobs_are_refused", "repeated", "crates/job_tests/src/tests/runs.rt has no test repeated"),
    ("job_tests/src/tests/runs", "mps_cli/src/run", "mps_cli/src/run isn't a file of tests"),
    ("card-3", "read-24", "no read-24 is run in examples/faults"),
    ("three_cards", "four_cards", "four_cards isn't defined in crates/card_definitions/proofs/Examples.antt, or ensures nothing"),
    ("    contract    card_reader/src/read  read_job\n", "", "how bytes are cut into cards: no contract stands here")))
def test_a_wrong_row_is_told(old, new, wanted):
    assert wanted in told(ROW.replace(old, new))


@pytest.mark.parametrize("line", ("    tests  job_tests/src/tests/runs  x", "    code  card_reader/src/cut"))
def test_a_line_that_is_none_is_told(line):
    with pytest.raises(rules.WrongTable):
        rules.read(ROW + line + "\n")


def test_a_fault_in_no_row_is_told():
    assert any("stands in no rule" in what for _, what in rules.wrong_rules(rules.read(ROW)))


def test_the_table_and_its_page():
    ended = call(DEV / "rules.py", "--check")
    assert (ended.returncode, ended.stderr) == (0, b"")


@pytest.mark.parametrize("words, status", ((("--help",), 0), ((), 64), (("--check", "x"), 64)))
def test_words(words, status):
    assert call(DEV / "rules.py", *words).returncode == status

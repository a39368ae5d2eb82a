#!/usr/bin/env python3
"""Compares the program with python/oracle/listing.py on small jobs made at random: rows of each type, combinations, ranges, bounds of each type,
MIN and MAX, RANGE, two right-hand sides in one run, PARAOBJ and PARARHS, REVISE, the deck written out; the basis punched, taken in again and
solved from by DUAL; basis decks made at random, with their faults. Some of the decks are free, and in some jobs a card of a deck is changed,
which mostly makes a fault. Outside the gate: a run of 300 takes some minutes unproved, a few seconds else.

usage: random_jobs.py [--unproved | --itself] [--no-parametric] [--no-revise] [--no-bases] [--no-free] [--no-faults] [--no-combinations]
                      [FIRST [COUNT]]
       random_jobs.py [--unproved | --itself] --decks [--no-free] [--no-combinations] [FIRST [COUNT]]
       random_jobs.py [--unproved | --itself] --sums [FIRST [COUNT]]
       random_jobs.py [--unproved | --itself] --attest [--long] [--decks | --sums] [..] [FIRST [COUNT]]
       jobs FIRST, FIRST + 1, ..; 0 and 300 where nothing is said

It prints how many differ, and the first of them whole; ends with 1 where one does, with 70 where there is no program. --unproved: the
program as it stands, where no proved one is. --no-parametric: without PARAOBJ and PARARHS; --no-revise: without REVISE; --no-bases: without
DUAL, PUNCH and INSERT; --no-free: fixed decks alone; --no-faults: no card is changed; --no-combinations: plain rows alone. --decks: a deck
and its revision alone, both written out, and in each job a card of one of them is changed. --sums: CONVERT and SETUP alone, with numbers so
large or so small that many a sum of a selection doesn't fit, and the run ends with 20; where several don't, the line may show any, and the
program shows the first, as the script does. --itself: no program runs; what oracle/listing.py says is checked by the meaning of the words,
where a job is small enough (python/oracle/every_basis.py). --attest: the checker of listings, mps360check, or with --long mps360long, is
compared with python/oracle/attesting.py on the listing of each job, from most of which what can't be attested is left out; none may be found
wrong. With --itself no program runs. python/tests/altered_listings.py alters listings."""
import collections, random, re, sys
import places
from mps360 import programs
from mps360.cli import free_deck
from oracle import attesting
from oracle import decks as expected_decks
from oracle import every_basis
from oracle import listing as expected_listing
from oracle.claims import OF_128_BITS, OF_ANY_LENGTH


def number(chance):
    kind = chance.random()
    if kind < 0.5:
        return str(chance.randint(-9, 9))
    return f"{chance.randint(-99, 99) / 10}" if kind < 0.8 else f"{chance.randint(-999, 999)}E{chance.randint(-2, 1)}"


ITEM = "    {:<10}{:<10}{}".format


def statements(*lines):
    "cards of the program; a label stands before a colon"
    return ["{:<8} {}".format(*line.rpartition(":")[::2]) for line in lines]


def solving(name):
    "PRIMAL and what it leaves, as labels with this letter"
    return statements(f"MVADR(XDONFS,{name}NOT)", f"MVADR(XDOUNB,{name}NOT)", "PRIMAL", "SOLUTION", "RANGE", f"GOTO({name}END)",
                      f"{name}NOT:SOLUTION", f"{name}END:TITLE('NEXT')")


def parametric_run(chance, verb, change):
    "a parametric run, after which the next one goes on; more have a plan where it begins near 0"
    first = chance.choice((0, 0, -1, -0.5, 1, chance.randint(-9, 9)))
    return statements(change, f"MOVE(XPARAM,{first})", f"MOVE(XPARMAX,{first + chance.choice((0, 1, 5, 20, 999))})", f"MVADR(XDONFS,{verb}N)",
                      f"MVADR(XDOUNB,{verb}N)", verb, f"{verb}N:TITLE('NEXT')")


def is_whole(text):
    return re.fullmatch(r"-?\d+", str(text)) is not None


def combination_cards(word, name, parts, two_on_a_card):
    "the cards of a combination, with one or two parts each"
    pairs, size, head = [f"{row:<10}{times:<15}" for row, times in parts], 2 if two_on_a_card else 1, f" {word:<3}{name:<10}"
    return [(head + "".join(pairs[at:at + size])).rstrip() for at in range(0, len(pairs), size)] or [head.rstrip()]


def combined(chance, rows):
    "the parts of those rows that are made combinations, by their names: multipliers, most of them small, of earlier rows"
    parts = {}
    for place, (_, name) in enumerate(rows):
        if name == "OBJ" and chance.random() < 0.7 or chance.random() < 0.6:
            continue
        earlier = [row for _, row in rows[:place]]
        taken = chance.sample(earlier, min(len(earlier), chance.choice((0, 1, 1, 2, 2, 3))))
        parts[name] = {row: number(chance) if chance.random() < 0.3 else str(chance.choice((-2, -1, 1, 1, 2, 3))) for row in taken}
    return parts


class Deck:
    """the sections of a deck made at random. A friendly one has whole entries and a plan that keeps most of its limits, so that more of its jobs
    have a best plan; in half of these each column has two limits, so that a parametric run goes through more intervals. Where it combines,
    some of its rows are sums of multiples of earlier ones."""
    def __init__(self, chance, combines):
        self.rows = [("N", "OBJ"), ("N", "CHG")]
        self.rows += [(chance.choice("LGELGN" if chance.random() < 0.2 else "LGE"), f"R{k}") for k in range(chance.randint(1, 4))]
        chance.shuffle(self.rows)
        self.parts = combined(chance, self.rows) if combines else {}
        is_friendly = chance.random() < 0.7
        is_boxed = is_friendly and chance.random() < 0.5
        plan = {f"C{j}": chance.randint(0, 5) for j in range(chance.randint(3 if is_boxed else 0, 6))}
        entries = {(column, row): chance.randint(-9, 9) if is_friendly else number(chance)
                   for column in plan for _, row in self.rows if row not in self.parts and chance.random() < 0.7}
        self.entries = [(column, row, value) for (column, row), value in entries.items()]
        activity = {}
        for _, row in self.rows:
            of_columns = [value * plan[column] for (column, other), value in entries.items() if other == row] if is_friendly else []
            activity[row] = sum(of_columns) + sum(int(times) * activity[other] for other, times in self.parts.get(row, {}).items() if is_whole(times))
        self.is_wide = chance.random() < 0.5
        self.values, self.bounds, self.bound_set = [], [], chance.choice(("BD", "BD", "BD", ""))
        for name in (chance.choice(("B1", "B1", "B1", "")), "B2"):
            for kind, row in self.rows:
                if chance.random() < 0.8:
                    kept = activity[row]
                    room = {"L": chance.randint(0, 9), "G": -chance.randint(0, 9)}.get(kind, 0)
                    self.values.append((name, row, kept + room if is_friendly else number(chance)))
        self.ranges = [("RG", row, number(chance)) for kind, row in self.rows if kind != "N" and chance.random() < 0.3]
        for column in dict.fromkeys(column for column, _ in entries):
            if is_boxed or chance.random() < 0.55:
                for kind in ["LO", "UP"] if is_boxed else chance.choice((["UP"], ["LO"], ["FX"], ["FR"], ["MI"], ["LO", "UP"])):
                    room = {"LO": -chance.randint(0, 5), "UP": chance.randint(0, 5)}.get(kind, 0)
                    value = "" if kind in ("FR", "MI") else plan[column] + room if is_friendly else number(chance)
                    self.bounds.append(f" {kind} {self.bound_set:<10}{column:<10}{value}".rstrip())

    def cards(self):
        cards = ["NAME          RANDOM", "ROWS"]
        for kind, row in self.rows:
            cards += combination_cards("D" + kind, row, self.parts[row].items(), self.is_wide) if row in self.parts else [f" {kind}  {row}"]
        cards += ["COLUMNS"]
        cards += [ITEM(*entry) for entry in self.entries] + ["RHS", *(ITEM(*value) for value in self.values)]
        cards += ["RANGES", *(ITEM(*value) for value in self.ranges)] if self.ranges else []
        return cards + (["BOUNDS", *self.bounds] if self.bounds else []) + ["ENDATA"]


def combining(chance, problem):
    "cards of a revision that insert a combination, go on with it, or modify one"
    rows, name = list(problem.rows), f"D{chance.randint(0, 9)}"
    place, word = chance.randint(0, len(rows)), "D" + chance.choice("LGEN")
    before = rows[place:place + 1]
    earlier = rows[:place]
    parts = [(row, number(chance)) for row in chance.sample(earlier, min(len(earlier), chance.randint(0, 3)))]
    head = f" {'BEFORE':<13}{before[0]}" if before else " AFTER"
    other = [*combination_cards("DN", name + "X", [], False), *combination_cards("DN", name + "X", [(name, 2)], False)]
    yield [head, *combination_cards(word, name, parts, chance.random() < 0.5), *(other if chance.random() < 0.3 else [])]
    if problem.parts:
        name = chance.choice(list(problem.parts))
        earlier = rows[:rows.index(name)]
        parts = [(row, number(chance)) for row in chance.sample(earlier, min(len(earlier), chance.randint(0, 2)))]
        yield [" MODIFY", *combination_cards(f"D{chance.choice([problem.rows[name], *'LGE'])}", name, parts, chance.random() < 0.5)]


def edits(chance, problem, combines):
    "an action with its cards, at random, for each section of a revision some"
    rows, columns, sets = list(problem.rows), list(problem.columns), problem.sets
    new = f"N{chance.randint(0, 99)}"

    def acted(word, *cards, name=""):
        return [f" {word:<13}{name}".rstrip(), *(card.rstrip() for card in cards)]

    def entry(name, row):
        return ITEM(name, row, number(chance))

    yield from (("ROWS", cards) for cards in (combining(chance, problem) if combines else ()))
    yield "ROWS", acted("MODIFY", f" {chance.choice('LGE')}  {chance.choice(rows)}")
    yield "ROWS", acted("DELETE", f"    {chance.choice(rows)}")
    yield "ROWS", acted(chance.choice(("BEFORE", "AFTER")), f" {chance.choice('LGEN')}  {new}", f" L  {new}B", name=chance.choice([*rows, ""]))
    if columns:
        column, row = chance.choice(columns), chance.choice(rows)
        yield "COLUMNS", acted("MODIFY", entry(column, row), entry(column, chance.choice(rows)))
        yield "COLUMNS", acted("DELETE", ITEM(column, row, ""))
        yield "COLUMNS", acted("DELETE", f"    {chance.choice(columns)}")
    yield "COLUMNS", acted(chance.choice(("BEFORE", "AFTER")), entry(new, chance.choice(rows)), name=chance.choice([*columns, ""]))
    for section in ("RHS", "RANGES"):
        name = chance.choice([*sets[section], new])
        row = chance.choice([row for row in rows if section == "RHS" or problem.rows[row] != "N"] or rows[:1])
        if section == "RHS" or problem.rows[row] != "N":
            yield section, acted("MODIFY", entry(name, row))
        yield section, acted("DELETE", ITEM(name, row if chance.random() < 0.7 else "", ""))
    if columns:
        name, column = chance.choice([*sets["BOUNDS"], new]), chance.choice(columns)
        kind = chance.choice(("UP", "LO", "FX", "FR", "MI", "PL"))
        yield "BOUNDS", acted("MODIFY", f" {kind} {name:<10}{column:<10}{number(chance) if kind in ('UP', 'LO', 'FX') else ''}")
        yield "BOUNDS", acted("DELETE", ITEM(name, column if chance.random() < 0.7 else "", ""))


def revision(chance, problem, combines):
    "a deck that revises the problem, of edits that can be made one after the other, and the revised problem"
    cards, revised, begun = ["NAME          REVISED"], problem, None
    for section in ("ROWS", "COLUMNS", "RHS", "RANGES", "BOUNDS"):
        for _ in range(chance.choice((0, 1, 1, 2))):
            kind, edit = chance.choice([edit for edit in edits(chance, revised, combines) if edit[0] == section] or [(None, [])])
            tried = cards + ([section] if begun != section else []) + edit
            try:
                candidate = problem.revised([*tried, "ENDATA"])
            except expected_decks.DeckFault:
                continue
            if kind and is_lawful(candidate):
                cards, revised, begun = tried, candidate, section
    return [*cards, "ENDATA"], revised


def is_lawful(problem):
    "no row of type N has a range, and the objective is there"
    ranged = {row for items in problem.sets["RANGES"].values() for row in items}
    return problem.rows.get("OBJ") == "N" and all(kind != "N" or row not in ranged for row, kind in problem.rows.items())


def revising(chance, deck, combines):
    "the statements that revise the deck's problem and solve what comes of it, the deck of the revision, and the new SETUP"
    problem = expected_listing.Problem(deck.cards())
    cards, revised = revision(chance, problem, combines)
    words = [f"'{word}','{name}'" for word, section in (("RANGE", "RANGES"), ("BOUND", "BOUNDS")) for name in revised.sets[section]][:1]
    setup = f"SETUP({','.join([*words, chance.choice(SENSES)])})"
    return statements("REVISE", "INITIALZ", "MOVE(XOBJ,'OBJ')", setup) + solving("R"), cards, setup


def run_of(program, cards):
    "the run of a job, as it is worked out"
    run = expected_listing.Run("\n".join([*statements("PROGRAM"), *program, *statements("PEND"), *cards]) + "\n")
    run.run()
    return run


def keeping(setup, cards, names):
    """the statements that set up again and take the basis at which PRIMAL ended, and its deck; where it is optimal its prices are right, and
    DUAL goes on for each right-hand side, else PRIMAL"""
    run = run_of(statements("CONVERT", "MOVE(XOBJ,'OBJ')", setup, "MVADR(XDONFS,KEEP)", "MVADR(XDOUNB,KEEP)", "PRIMAL", "KEEP:PUNCH"), cards)
    program = statements(setup, "INSERT", "PUNCH")
    if run.mark != "OPTIMAL":
        return program + solving("K"), run.punched
    for letter, name in enumerate(sorted(names)):
        program += statements(f"MOVE(XRHS,'{name}')") + [card.replace("PRIMAL", "DUAL") for card in solving(f"K{letter}")]
    return program + statements("PUNCH"), run.punched


def basis_cards(chance, lp):
    "a basis deck at random; most have no fault, and some of these are singular"
    def code(k, codes):
        fitting = [word for word, ends in zip(codes, (lp.upper, lp.lower)) if ends[k] is not None]
        return chance.choice(fitting if fitting and chance.random() < 0.97 else codes)

    rows = [k for k in range(lp.m) if lp.lower[k] is not None or lp.upper[k] is not None or chance.random() < 0.03]
    columns = list(range(lp.m, lp.m + lp.n))
    count = chance.randint(0, min(len(rows), len(columns)))
    chance.shuffle(columns)
    cards = [f" {code(row, ('XU', 'XL'))} {lp.names[column]:<10}{lp.names[row]}" for column, row in zip(columns, chance.sample(rows, count))]
    limited = [k for k in columns[count:] if lp.lower[k] is not None or lp.upper[k] is not None]
    cards += [f" {code(k, ('UL', 'LL'))} {lp.names[k]}" for k in limited if chance.random() < 0.4]
    wrong = [" XX A", " XU NOBODY    OBJ", " UL", "    C0", "ROWS", "LAST", "NAME          TWICE", *(card[:13] + "X" + card[14:] for card in cards if len(card) > 14),
             *cards, *(card[:14] + "NOBODY" for card in cards), *(f"{card:<24}1" for card in cards)]
    if chance.random() < 0.15:
        cards.insert(chance.randint(0, len(cards)), chance.choice(wrong))
    chance.shuffle(cards)
    return ["NAME          BASIS", *cards, *(["ENDATA"] if chance.random() < 0.98 else [])]


def basing(chance, setup, program, cards):
    "the statements that take a basis deck made at random and solve from it, as far as they come, and the deck"
    verb = chance.choice(("DUAL", "PRIMAL"))
    others = ["MOVE(XITERLIM,'NONE')"] if chance.random() < 0.1 else [f"MOVE(XITERLIM,{chance.randint(0, 3)})"] if chance.random() < 0.1 else []
    solve = [card.replace("PRIMAL", verb) for card in solving("I")]
    return statements(setup, "INSERT", "PUNCH", *others) + solve + statements("PUNCH"), basis_cards(chance, run_of([*program, *statements(setup)], cards).lp)


# what is put in the place of a word of a card
WRONG = ("", "Q", "LONGNAME9", "1234567890123", "1.2.3", "1E19", "E5", ".", "1E", "-", "0", "DN", "DL", "DE", "DG", "BV", "FR", "UP", "N", "'MARKER'", "NOBODY", "MODIFY",
         "DELETE", "BEFORE", "AFTER", "CHANGE", "ROWS", "BOUNDS", "ENDATA", "C0", "R0", "OBJ", "B1", "BD")


def decks_of(cards):
    "the cards of each deck"
    ends = [place for place, card in enumerate(cards, 1) if card == "ENDATA" or place == len(cards)]
    return [cards[begin:end] for begin, end in zip([0, *ends], ends)]


def in_words(chance, deck):
    """the same deck free, its words here and there on their cards; a basis deck is fixed, whatever stands behind its name, and one that has a
    fault may look like another deck that can't be said in words"""
    try:
        words = free_deck.turned("\n".join(deck), True, print).split("\n")
    except free_deck.Refused:
        return deck
    if words == deck:
        return [f"{deck[0]:<24}FREE", *deck[1:]]

    def spread(card):
        wide = "".join(" " * chance.choice((1, 1, 2, 5)) + word for word in card.split())
        return wide if card.startswith(" ") and len(wide) <= 80 else card
    return [spread(card) for card in words]


def spoiled(chance, deck):
    "the deck with a card changed, left out, put in twice or elsewhere"
    return [card[:80].rstrip() for card in changed(chance, deck)]


def changed(chance, deck):
    place, how = chance.randrange(len(deck)), chance.random()
    card, others = deck[place], deck[:place] + deck[place + 1:]
    if how < 0.1 or not card:
        return others
    if how < 0.2:
        return deck[:place] + [card] + deck[place:]
    if how < 0.3:
        other = chance.randrange(len(deck))
        return others[:other] + [card] + others[other:]
    if how < 0.4:
        return deck[:place] + [f"{card} {chance.choice(WRONG)}"] + deck[place + 1:]
    if how < 0.5:
        column = chance.randrange(len(card) + 1)
        return deck[:place] + [card[:column] + chance.choice(("", " ", "X", "-")) + card[column + chance.randint(0, 1):]] + deck[place + 1:]
    begin, end = chance.choice([found.span() for found in re.finditer("[^ ]+", card)])
    word = chance.choice((chance.choice(WRONG), chance.choice(" ".join(deck).split())))
    return deck[:place] + [f"{card[:begin]}{word:<{end - begin}}{card[end:]}"] + deck[place + 1:]


def retold(chance, cards, has_free, has_faults):
    "the decks of a job, some of them free, now and then one with a card that is changed"
    decks = [in_words(chance, deck) if has_free and chance.random() < 0.4 else deck for deck in decks_of(cards)]
    if has_faults and chance.random() < 0.2:
        at = chance.randrange(len(decks))
        decks[at] = spoiled(chance, decks[at])
    return [card for deck in decks for card in deck]


SENSES = ("'MIN'", "'MAX'")


def job(seed, is_parametric, revises, has_bases, has_free, has_faults, has_combinations):
    chance = random.Random(seed)
    combines = has_combinations and chance.random() < 0.5
    deck = Deck(chance, combines)
    words = (["'RANGE','RG'"] if deck.ranges else []) + ([f"'BOUND','{deck.bound_set}'"] if deck.bounds else []) + [chance.choice(SENSES)]
    setup = f"SETUP({','.join(words)})"
    program = statements("CONVERT", "MOVE(XOBJ,'OBJ')", setup) + solving("A")
    names = {name for name, _, _ in deck.values}
    if len(names) == 2:
        program += statements("MOVE(XRHS,'B2')") + solving("B")
    if is_parametric:
        program += parametric_run(chance, "PARAOBJ", "MOVE(XCHROW,'CHG')")
        program += parametric_run(chance, "PARARHS", f"MOVE(XCHCOL,'{max(names)}')") if names else []
    cards, revised = deck.cards(), revising(chance, deck, combines) if revises else ([], [], setup)
    if has_bases:
        more, basis = keeping(setup, cards, names)
        program, cards = program + more, cards + basis
    program, cards = program + revised[0] + statements("BCDOUT"), cards + revised[1]
    if has_bases:
        more, basis = basing(chance, revised[2], program, cards)
        program, cards = program + more, cards + basis
    cards = retold(random.Random(f"decks of {seed}"), cards, has_free, has_faults)
    return "\n".join([*statements("PROGRAM"), *program, *statements("EXIT", "PEND"), *cards]) + "\n"


def job_of_decks(seed, has_free, has_combinations):
    "a deck and its revision, which are written out, one of them with a card or two that are changed"
    chance = random.Random(f"deck and revision {seed}")
    combines = has_combinations and chance.random() < 0.7
    cards = Deck(chance, combines).cards()
    decks = [in_words(chance, deck) if has_free and chance.random() < 0.7 else deck
             for deck in (cards, revision(chance, expected_listing.Problem(cards), combines)[0])]
    at = chance.choice((0, 1, 1))
    for _ in range(chance.choice((1, 1, 2))):
        decks[at] = spoiled(chance, decks[at])
    program = statements("PROGRAM", "CONVERT", "BCDOUT", "REVISE", "BCDOUT", "EXIT", "PEND")
    return "\n".join([*program, *decks[0], *decks[1]]) + "\n"


def wide_number(chance):
    "a number of few digits or many, large or small"
    kind = chance.random()
    if kind < 0.3:
        return str(chance.randint(-9, 9))
    if kind < 0.6:
        return f"{chance.randint(-999999, 999999)}E{chance.randint(-18, 18)}"
    return f".{chance.randint(1, 99999)}E{chance.choice((-18, -17, 18))}" if kind < 0.8 else f"{chance.randint(1, 999999999)}E18"


def job_of_sums(seed):
    "a job whose selection makes sums of combinations and of ranges"
    chance = random.Random(f"sums {seed}")
    rows = [("N", "COST"), ("L", "A"), ("G", "B"), ("E", "C")][:chance.randint(1, 4)]
    cards = ["NAME          SUMS", "ROWS", *(f" {kind}  {row}" for kind, row in rows), "COLUMNS"]
    columns = [ITEM(f"X{j}", row, wide_number(chance)) for j in range(chance.randint(1, 3)) for _, row in rows if chance.random() < 0.7]
    for k in range(chance.randint(1, 4)):
        earlier, kind = [row for _, row in rows], chance.choice("NLGE")
        parts = [(row, wide_number(chance)) for row in chance.sample(earlier, min(len(earlier), chance.randint(0, 3)))]
        cards[-1:-1] = combination_cards("D" + kind, f"S{k}", parts, chance.random() < 0.5)
        rows.append((kind, f"S{k}"))
    values = [ITEM("B", row, wide_number(chance)) for _, row in rows if chance.random() < 0.4]
    ranges = [ITEM("R", row, wide_number(chance)) for kind, row in rows if kind != "N" and chance.random() < 0.2]
    program = statements("PROGRAM", "CONVERT", "SETUP('RANGE','R')" if ranges else "SETUP", "EXIT", "PEND")
    return "\n".join([*program, *cards, *columns, "RHS", *values, *(["RANGES", *ranges] if ranges else []), "ENDATA"]) + "\n"


def kind_of(line):
    "what is counted of a listing: verdicts, RANGE, ends of parametric runs, faults"
    if line == "RANGE":
        return "ranges"
    if line.startswith(("REVISE ", "INSERT ")):
        return {"R": "revised", "I": "inserted"}[line[0]]
    found = re.match("(?:PRIMAL|(DUAL)) (OPTIMAL|INFEASIBLE|UNBOUNDED) |(PARAOBJ|PARARHS) (ENDS|INFEASIBLE|UNBOUNDED) "
                     "|STOP (?:10|12) (VERB|DECK) FAULT ([0-9]+)|STOP 20 OVERFLOW (F[0-9]+)", line)
    return found and " ".join(word for word in found.groups() if word).lower()


def by_program(jobs, expected, unproved):
    "the names of the jobs to which the program gives another answer, and what it gives; punched decks are the proved program's alone"
    program = None if unproved else programs.proved_program()
    if program:
        answers = {name: programs.run_proved(program, text.encode()) for name, text in jobs.items()}
    else:
        answers = programs.run_jobs({name: text.encode() for name, text in jobs.items()}, unproved)
    return {name: (listing + (punch[0] or b"" if punch else b"")).decode("latin-1") for name, (status, listing, *punch) in answers.items()
            if (status, listing.decode("latin-1"), *(deck and deck.decode("latin-1") for deck in punch)) != expected[name][:2 + len(punch)]}


def job_to_attest(seed, is_parametric, revises, has_bases, has_free, has_faults, has_combinations):
    "a job, in nine cases of ten without what can't be attested, which is RANGE, PUNCH and INSERT"
    if random.Random(f"open in {seed}").random() < 0.1:
        return job(seed, is_parametric, revises, has_bases, has_free, has_faults, has_combinations)
    return job(seed, is_parametric, revises, False, has_free, has_faults, has_combinations).replace(statements("RANGE")[0] + "\n", "")


def attest(jobs, program, by):
    "how often each answer came to the jobs' own listings, and for each job of which another is given than is worked out, or WRONG, the two"
    answers, wrong = collections.Counter(), {}
    for name, text in jobs.items():
        run = expected_listing.Run(text)
        run.run()
        job, listing = text.encode("latin-1"), ("\n".join(run.lines) + "\n").encode("latin-1")
        status, line = attesting.attest(job, listing, by)
        said = programs.attested_by(program, job, listing) if program else (status, line + "\n")
        answers[line.split(" ")[0]] += 1
        if said != (status, line + "\n") or status in (attesting.WRONG, attesting.LONG):
            wrong[name] = f"{text}\n{listing.decode('latin-1')}the program says {said}, and it is worked out as {(status, line)}"
    return answers, wrong


def attest_all(jobs, modes):
    "the same, told; the status with which this ends"
    is_long = "--long" in modes
    try:
        program = None if "--itself" in modes else programs.checker_program("--unproved" in modes, "mps360long" if is_long else "mps360check")
    except programs.NoProgram as cause:
        print(f"random_jobs.py: {cause}", file=sys.stderr)
        return 70
    answers, wrong = attest(jobs, program, OF_ANY_LENGTH if is_long else OF_128_BITS)
    print(f"{len(jobs)} listings, {len(wrong)} answers differ; {', '.join(f'{n} {word}' for word, n in sorted(answers.items()))}")
    for name, told in list(wrong.items())[:1]:
        print(f"job {name}:\n{told}", file=sys.stderr)
    return 1 if wrong else 0


PARTS = ("--no-parametric", "--no-revise", "--no-bases", "--no-free", "--no-faults", "--no-combinations")


def main(words):
    modes = {word for word in words if word in ("--unproved", "--itself", "--decks", "--sums", "--attest", "--long", *PARTS)}
    numbers = [word for word in words if word not in modes]
    if any(not word.isdigit() for word in numbers) or len(numbers) > 2 or {"--unproved", "--itself"} <= modes or {"--decks", "--sums"} <= modes or "--long" in modes and "--attest" not in modes:
        print(__doc__)
        return 0 if words in (["-h"], ["--help"]) else 64
    first, count = [int(word) for word in numbers] + [0, 300][len(numbers):]
    parts = [word not in modes for word in PARTS]
    kind = job_to_attest if "--attest" in modes else job
    made = lambda seed: kind(seed, *parts)
    if "--decks" in modes:
        made = lambda seed: job_of_decks(seed, "--no-free" not in modes, "--no-combinations" not in modes)
    elif "--sums" in modes:
        made = job_of_sums
    jobs = {str(seed): made(seed) for seed in range(first, first + count)}
    if "--attest" in modes:
        return attest_all(jobs, modes)
    expected, verdicts, looked, wrong = {}, collections.Counter(), 0, {}
    for name, text in jobs.items():
        run = every_basis.Watched(text) if "--itself" in modes else expected_listing.Run(text)
        status = run.run()
        expected[name] = status, "\n".join(run.lines) + "\n", "\n".join(run.punched) + "\n" if run.punched else None
        verdicts.update(kind for kind in map(kind_of, run.lines) if kind)
        if "--itself" in modes:
            looked += run.looked
            wrong.update({name: "\n".join(run.differences)} if run.differences else {})
    if "--itself" not in modes:
        try:
            wrong = by_program(jobs, expected, "--unproved" in modes)
        except programs.NoProgram as cause:
            print(f"random_jobs.py: {cause}", file=sys.stderr)
            return 70
    told = f"; {looked} answers checked" if "--itself" in modes else ""
    print(f"{count} jobs, {len(wrong)} differ; {', '.join(f'{n} {kind}' for kind, n in sorted(verdicts.items()))}{told}")
    for name, text in list(wrong.items())[:1]:
        print(f"job {name}:\n{jobs[name]}\nit gives:\n{text}\nexpected:\n{expected[name][1]}{expected[name][2] or ''}", file=sys.stderr)
    return 1 if wrong else 0


if __name__ == "__main__":
    sys.exit(main(sys.argv[1:]))

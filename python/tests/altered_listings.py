#!/usr/bin/env python3
"""Alters listings at random (a byte, a word, a number, a line changed, doubled, left out, moved) and looks at what oracle/attesting.py says of
them. Whatever it attests of an altered listing may differ from the listing that was altered only in what isn't attested (AT codes, counts of
steps) or in numbers that prove the same; and each optimum and each conflict that it attests is checked again as a VIPR certificate.

usage: altered_listings.py [--long] [--proved | --unproved | --program FILE] [--jobs] [--keep FOLDER] [FIRST [COUNT]]
       listings FIRST, FIRST + 1, ..; 0 and 300 where nothing is said, each as it is and with ten alterations

  --long           by the rules of mps360long, which reads numbers of any length, and in place of mps360check
  --proved         the proved program mps360check is to say the same of each
  --unproved       the same of the program as it stands, built once, where no proved one is
  --program FILE   the same of another program: it takes the job on standard input and the listing from the file LISTING in the present folder,
                   prints one line, and ends with its status
  --jobs           ten alterations more: of a card of the control program, which mostly is a fault. The listing is then the line by which the
                   job is refused
  --keep FOLDER    each job and listing on which something is wrong goes there

Half of the listings are those of examples/ and python/tests/data, half those of jobs made at random. It prints how often which status came, ends
with 1 where something is wrong, with 70 where there is no program."""
import collections, pathlib, random, re, sys
from fractions import Fraction
import places
import random_jobs
from mps360 import programs
from mps360.listings.made import OtherJob
from mps360.listings.read import NoListing
from mps360.vipr import NoClaim, claims_of, lines_of
from oracle import attesting
from oracle import listing as expected_listing
from oracle import rules
from oracle import vipr
from oracle.claims import ATTESTED, OF_128_BITS, OF_ANY_LENGTH, OPEN, UNCHECKED

ALTERATIONS = 10
PRINTABLE = "".join(map(chr, range(32, 127)))
NUMBER = re.compile(r"-?\d+(?:/\d+)?")
CODES = ("BS", "**", "EQ", "LL", "UL", "FR")


# ---- listings

def written_by_hand():
    "the jobs of examples/ and python/tests/data that have a listing"
    jobs = [*(programs.TOP / "examples").glob("*.job"), *(places.DATA).glob("*.job")]
    return [(job.stem, job.read_bytes(), job.with_suffix(".listing").read_bytes()) for job in sorted(jobs) if job.with_suffix(".listing").exists()]


def made_at_random(seed):
    "a job made at random, most of them without RANGE, which can't be attested"
    chance = random.Random(seed)
    text = random_jobs.job(seed, True, True, chance.random() < 0.1, True, False, True)
    if chance.random() < 0.9:
        text = text.replace("         RANGE\n", "")
    run = expected_listing.Run(text)
    run.run()
    return f"random {seed}", text.encode(), ("\n".join(run.lines) + "\n").encode()


# ---- alterations: of a list of lines, each gives another one

def other_number(chance, word):
    number = chance.choice((f"-{word}", word[1:] or "0", str(int(word.split("/")[0]) + chance.choice((-1, 1))), "0", "1", f"{word}0", f"{word}/2", f"0{word}",
                            str(2 ** 127 - chance.randint(0, 1)), word + "7" * chance.choice((40, 100, 100_000)), f"1/{'3' * 60}", f"{chance.randint(-9, 9)}", f"{chance.randint(-9, 9)}/{chance.randint(1, 9)}"))
    return number.replace("--", "")


def in_line(chance, lines, form, change):
    "one find of a form in a line, changed"
    place = chance.randrange(len(lines))
    found = list(re.finditer(form, lines[place]))
    if found:
        one = chance.choice(found)
        lines[place] = lines[place][:one.start()] + change(one[0]) + lines[place][one.end():]


def a_byte(chance, lines):
    in_line(chance, lines, ".", lambda _: chance.choice((chance.choice(PRINTABLE), "", "\n", "\t", "\r", " ", "  ")))


def a_word(chance, lines):
    words = " ".join(lines).split()
    in_line(chance, lines, r"[^ ]+", lambda _: chance.choice((chance.choice(words), chance.choice(CODES), "NONE")))


def a_number(chance, lines):
    in_line(chance, lines, NUMBER, lambda word: other_number(chance, word))


def a_code(chance, lines):
    in_line(chance, lines, r"(?<= )(?:BS|\*\*|EQ|LL|UL|FR)(?= )", lambda _: chance.choice(CODES))


def two_numbers(chance, lines):
    "the same change of two numbers, as where a ray is turned"
    place = chance.randrange(len(lines))
    change = chance.choice((lambda word: f"-{word}".replace("--", ""), lambda word: str(Fraction(word) * 3)))
    for k in (place, place + 1):
        if k < len(lines) and (found := re.search(r"-?\d+(?:/[1-9]\d*)?$", lines[k])):
            lines[k] = lines[k][:found.start()] + change(found[0])


def doubled(chance, lines):
    place = chance.randrange(len(lines))
    lines.insert(place, lines[place])


def left_out(chance, lines):
    del lines[chance.randrange(len(lines))]


def moved(chance, lines):
    line = lines.pop(chance.randrange(len(lines)))
    lines.insert(chance.randint(0, len(lines)), line)


def cut_off(chance, lines):
    del lines[chance.randrange(len(lines)):]


def strange(chance, lines):
    stops = ("STOP 28 MEMORY", "STOP 24 READ FAULT", "STOP 26 PUNCH FAULT", "STOP 17 STATEMENT LIMIT", "STOP 16 ITERATION LIMIT 5 CARD 9", "STOP 28 MEMORY NOW",
             "STOP 10 VERB FAULT 16 CARD 5 VARIABLE 2", "STOP 10 VERB FAULT 15 CARD 05", "STOP 4 WORDS", "END 0", "END 1", "RANGE", " junk",
             "    1 COST     0", "",
             "STOP 20 OVERFLOW F10 MUL 1 2 P 0 Q 0 I 2 J 3 TERM 0 THETA 0 CARD 4")
    place = chance.randrange(len(lines) + 1)
    lines[place:place + chance.randint(0, 1)] = [chance.choice(stops)]


KINDS = (a_byte, a_word, a_number, a_number, a_number, a_code, two_numbers, doubled, left_out, moved, cut_off, strange)


def altered(chance, listing):
    "the kinds of alterations, and the altered listing"
    lines, kinds = listing.decode("latin-1").split("\n")[:-1], []
    for _ in range(chance.choice((1, 1, 1, 2))):
        if lines:
            kinds.append(chance.choice(KINDS))
            kinds[-1](chance, lines)
    text = "".join(f"{line}\n" for line in lines)
    return kinds, (text[:-1] if chance.random() < 0.02 else text).encode("latin-1")


def altered_job(chance, job, listing):
    "the job with a card of its control program changed, and the line by which it is refused, or its listing as it was"
    cards = job.decode("latin-1").split("\n")
    end = next((place for place, card in enumerate(cards) if card.split() == ["PEND"]), len(cards) - 1) + 1
    text = "\n".join(random_jobs.changed(chance, cards[:end]) + cards[end:]).encode("latin-1")
    try:
        rules.Program(rules.cut(text))
    except rules.Stop as stop:
        return text, (stop.text + "\n").encode("latin-1")
    return text, listing


# ---- what is claimed

def claims(listing):
    "what a listing claims, without what isn't attested and without the numbers that prove it"
    place = None
    for line in listing.decode("latin-1").split("\n"):
        words = line.split(" ")
        if re.match(r" *\d+ ", line):
            yield from table_claim(line, place)
        elif verdict := re.match(r"([A-Z]+ (?:OPTIMAL|INFEASIBLE|UNBOUNDED)) STEPS", line):
            place = verdict[1]
            yield verdict[1] + (f" {words[5]}" if words[1] == "OPTIMAL" else "") + f" {words[-1]}"
        else:
            place = "INTERVAL" if words[0] == "INTERVAL" else line if line.startswith("SECTION") else place if line.startswith("NUMBER") else None
            yield line


def table_claim(line, place):
    "of a line of SOLUTION its limits and a column's cost, of an interval its variable, of a ray or a direction nothing"
    words = line[15:].split(" ")
    if place and place.startswith("SECTION"):
        yield line[:15] + " ".join(words[3:5] if place.endswith("ROWS") else words[2:5])
    elif place == "INTERVAL":
        yield line[:15]


class Follower(attesting.Walk):
    "a walk that counts the optima and the conflicts that have passed their test"
    proofs = 0

    def met(self, line, lp, claim):
        self.proofs += claim.kind == "INFEASIBLE" or claim.prices is not None


def is_proved_again(job, listing, by):
    "whether each optimum and each conflict that is attested is one by its certificate too, as the package writes it and the oracle checks it"
    follower = Follower(job, listing, by)
    try:
        follower.run()
    except attesting.Found:
        pass
    try:
        claims = [claim for claim in claims_of(job.decode("latin-1"), listing.decode("latin-1")) if claim.certificate]
        said = [vipr.check(vipr.parse("\n".join(lines_of(claim.certificate)))) for claim in claims]
    except (vipr.Wrong, vipr.NoCertificate, NoClaim, NoListing, OtherJob):
        return False
    ends = [claim.certificate.bounds for claim in claims]
    return len(claims) == follower.proofs and said == ["infeasible" if bounds is None else f"optimal, the objective is {bounds[0]}" for bounds in ends]


def faults(job, listing, original, checker, by):
    """the status, and what is wrong about what is said of a listing by the rules of a checker, and by the program that is asked; original is the listing that was altered, None where this is as the job prints
    it, and () where it is the job that was altered"""
    status, line = attesting.attest(job, listing, by)
    told = []
    if original is None and status not in (ATTESTED, OPEN, UNCHECKED):
        told.append(f"the job's own listing: {line}")
    if original and status == ATTESTED and list(claims(listing)) != list(claims(original)):
        told.append("an altered claim is attested")
    if status == ATTESTED and not is_proved_again(job, listing, by):
        told.append("what is attested isn't so by its certificate")
    if checker and (answer := programs.attested_by(checker, job, listing)) != (status, line + "\n"):
        told.append(f"the program says {answer[1].strip()[:60]!r}, status {answer[0]}, and by the rules it is {line!r}, status {status}")
    return status, told


def options_of(words):
    """whether a program is asked and which one, whether jobs are altered and the rules are those of long numbers, the folder, the first number and the
    count; None where the words are no use of this"""
    words, named = list(words), {"--program": None, "--keep": None}
    flags = {flag for flag in ("--jobs", "--long") if flag in words}
    words = [word for word in words if word not in flags]
    for name in named:
        if name in words:
            at = words.index(name)
            if at + 1 == len(words):
                return None
            named[name] = words[at + 1]
            del words[at:at + 2]
    asked = [word for word in words if word in ("--proved", "--unproved")] + ["--program"] * (named["--program"] is not None)
    numbers = [word for word in words if word not in asked]
    if len(asked) > 1 or len(numbers) > 2 or any(not word.isdigit() for word in numbers):
        return None
    return asked, named["--program"], flags, named["--keep"], *([int(word) for word in numbers] + [0, 300][len(numbers):])


def program_of(asked, file, is_long):
    "the program that is asked, if one is"
    if file:
        return str(pathlib.Path(file).resolve())
    return programs.checker_program(asked == ["--unproved"], "mps360long" if is_long else "mps360check") if asked else None


def main(words):
    options = options_of(words)
    if options is None:
        print(__doc__)
        return 0 if words in (["-h"], ["--help"]) else 64
    asked, file, flags, keep, first, count = options
    has_jobs, by = "--jobs" in flags, OF_ANY_LENGTH if "--long" in flags else OF_128_BITS
    try:
        checker = program_of(asked, file, "--long" in flags)
    except programs.NoProgram as cause:
        print(f"altered_listings.py: {cause}", file=sys.stderr)
        return 70
    by_hand, statuses, wrong = written_by_hand(), collections.Counter(), 0
    for number in range(first, first + count):
        chance = random.Random(f"listing {number}")
        name, job, listing = by_hand[number // 2 % len(by_hand)] if number % 2 else made_at_random(number // 2)
        tried = [((), job, listing, None), *((kinds, job, text, listing) for kinds, text in (altered(chance, listing) for _ in range(ALTERATIONS)))]
        tried += [((altered_job,), *altered_job(chance, job, listing), ()) for _ in range(ALTERATIONS * has_jobs)]
        for place, (kinds, given, text, original) in enumerate(tried):
            status, told = faults(given, text, original, checker, by)
            statuses[status] += 1
            for sentence in told:
                wrong += 1
                print(f"altered_listings.py: {number} ({name}), alteration {place} ({', '.join(kind.__name__ for kind in kinds)}): {sentence}", file=sys.stderr)
            if told and keep:
                for ending, content in (("job", given), ("listing", text)):
                    pathlib.Path(keep).mkdir(parents=True, exist_ok=True)
                    pathlib.Path(keep, f"{number}-{place}.{ending}").write_bytes(content)
    counts = ", ".join(f"{status}: {times}" for status, times in sorted(statuses.items()))
    print(f"{count} listings, {sum(statuses.values())} answers, {wrong} wrong; {counts}")
    return wrong > 0


if __name__ == "__main__":
    sys.exit(main(sys.argv[1:]))

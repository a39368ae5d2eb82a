"Random models with numbers of 17 digits, for the tests."
import random


def number_text(r, long, digits=16):
    return f"{r.choice(['', '-'])}{r.randint(1, 9)}.{''.join(r.choice('0123456789') for _ in range(digits))}" if long else str(r.randint(-3, 9))


def bound_lines(r, column, long):
    kind, number = r.choice(["UP", "UP", "LO", "FX", "MI", "both"]) if long else "UP", number_text(r, long)
    if kind == "both":
        return [f"LO B {column} {number_text(r, r.random() < .5)}", f"UP B {column} {r.choice(['9', number_text(r, True).strip('-')])}"]
    if kind == "MI":
        return [f"MI B {column}", *([f"UP B {column} {number}"] if r.random() < .5 else [])]
    return [f"{kind} B {column} {number.strip('-') if kind == 'UP' else number}"]


def random_text(seed, where, rows):
    "a file with numbers of 17 digits: c in costs, b at the right, u in bounds, r in ranges, a in entries"
    r = random.Random(f"{seed} {where} {rows}")
    columns = [f"X{k}" for k in range(rows + 2)]
    lines = ["NAME T", "OBJSENSE", f"    {r.choice(['MIN', 'MAX'])}", "ROWS", " N COST", *(f" {r.choice('LGLE' if k < 2 else 'LG')} R{k}" for k in range(rows)), "COLUMNS"]
    for column in columns:
        lines.append(f" {column} COST {number_text(r, 'c' in where)}")
        lines += [f" {column} R{k} {number_text(r, 'a' in where and r.random() < .5)}" for k in range(rows) if r.random() < .6]
    lines += ["RHS", *(f" B R{k} {number_text(r, 'b' in where and r.random() < .7)}" for k in range(rows))]
    if "r" in where:
        lines += ["RANGES", *(f" R R{k} {number_text(r, r.random() < .7).strip('-')}" for k in range(rows) if k == 0 or r.random() < .5)]
    lines += ["BOUNDS", *(f" {line}" for column in columns for line in bound_lines(r, column, "u" in where))]
    return "\n".join([*lines, "ENDATA"]) + "\n"

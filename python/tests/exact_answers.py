"""What an answer in fractions is to fulfil, tested against the model that was read: a plan and its prices, a ray, a direction. Nothing here knows how a
job is made."""
from fractions import Fraction

ZERO = Fraction(0)


def limits_of(model):
    "of each row and column, by kind and name, its limits"
    return {**{("row", row): model.row_limits(row) for row in model.rows}, **{("column", column): model.column_limits(column) for column in model.columns}}


def activities(model, point):
    rows = {row: ZERO for row in model.rows}
    for column, value in point.items():
        for row, entry in model.columns[column].items():
            rows[row] += entry * value
    for row, parts in model.parts.items():
        rows[row] = sum((times * rows[part] for part, times in parts.items()), ZERO)
    return rows


def columns_times(model, prices):
    "of each column the sum of its numbers, each times the row's price"
    effective = dict(prices)
    for row, parts in reversed(model.parts.items()):
        for part, times in parts.items():
            effective[part] = effective.get(part, ZERO) + times * effective.get(row, ZERO)
    return {column: sum((entry * effective.get(row, ZERO) for row, entry in entries.items()), ZERO) for column, entries in model.columns.items()}


def fraction(text):
    return None if text is None else Fraction(text)


def check_solution(model, report, objective):
    "the SOLUTION is a plan within all limits, its prices prove that it is best, and its other numbers follow from these"
    rows, columns = ({line["name"]: line for line in report[key]} for key in ("rows", "columns"))
    assert list(rows) == list(model.rows) and list(columns) == list(model.columns)
    point = {name: Fraction(line["activity"]) for name, line in columns.items()}
    prices = {name: Fraction(line["dual"]) for name, line in rows.items()}
    sums, worth = activities(model, point), activities(model, point)[model.objective]
    assert worth == objective
    costs = columns_times(model, {model.objective: Fraction(1)})
    priced = columns_times(model, prices)
    sign = -1 if model.sense == "MAX" else 1
    for name, line in columns.items():
        assert Fraction(line["cost"]) == costs[name]
        assert Fraction(line["reduced"]) == costs[name] - priced[name], name
    for name, line in rows.items():
        assert Fraction(line["activity"]) == sums[name], name
        assert Fraction(line["slack"]) == model.rhs.get(model.rhs_set, {}).get(name, ZERO) - sums[name]
    for (kind, name), (lower, upper) in limits_of(model).items():
        line = (rows if kind == "row" else columns)[name]
        value, price = Fraction(line["activity"]), Fraction(line["dual" if kind == "row" else "reduced"]) * sign
        assert (fraction(line["lower"]), fraction(line["upper"])) == (lower, upper), name
        assert (lower is None or value >= lower) and (upper is None or value <= upper), name
        assert price <= 0 or value == lower, name
        assert price >= 0 or value == upper, name
        stands = {"BS": True, "LL": value == lower, "UL": value == upper, "EQ": value == lower == upper, "FR": value == 0 and lower is None and upper is None}
        assert stands[line["at"]], (name, line["at"])
    assert sum(line["at"] == "BS" for line in [*rows.values(), *columns.values()]) == len(rows)


def check_ray(model, report):
    "multipliers of limits that are there, which add up to 0 on each column, and whose limits add up to less than 0"
    kinds = {name: kind for kind, names in (("column", model.columns), ("row", model.rows)) for name in names}
    factors = {(kinds[line["name"]], line["name"]): Fraction(line["multiplier"]) for line in report["ray"]}
    limits, total = limits_of(model), ZERO
    for place, factor in factors.items():
        limit = limits[place][1 if factor > 0 else 0]
        assert limit is not None, place
        total += factor * limit
    assert total < 0
    sums = columns_times(model, {name: factor for (kind, name), factor in factors.items() if kind == "row"})
    assert all(sums[column] + factors.get(("column", column), ZERO) == 0 for column in model.columns)


def check_direction(model, report):
    "a plan within all limits, and a direction that leaves none and makes the objective better"
    names = [("row", row) for row in model.rows] + [("column", column) for column in model.columns]
    lines = dict(zip(names, report["direction"], strict=True))
    assert all(line["name"] == name for (_, name), line in lines.items())
    limits = limits_of(model)
    for key in ("activity", "direction"):
        sums = activities(model, {name: Fraction(lines["column", name][key]) for name in model.columns})
        assert all(Fraction(lines["row", row][key]) == value for row, value in sums.items())
    for place, (lower, upper) in limits.items():
        value, change = Fraction(lines[place]["activity"]), Fraction(lines[place]["direction"])
        assert (lower is None or value >= lower and change >= 0) and (upper is None or value <= upper and change <= 0), place
    assert Fraction(lines["row", model.objective]["direction"]) * (1 if model.sense == "MAX" else -1) > 0

"""docs/gate-tables.md: what a CI run costs by crate, and what a change proves again."""
from .text import table, wrapped_rows
from .tree import read

PRICES = "tools/gate_prices.txt"
PARTS = ("proofs", "tests", "mutation tests")


def measured():
    """Returns by crate the CPU seconds of proofs, tests and mutation tests, and the number of mutation tests."""
    found = {}
    for line in read(PRICES).splitlines():
        if line.strip() and not line.startswith("#"):
            name, *numbers = line.split()
            found[name] = [int(number) for number in numbers]
    return found


def prices(crates):
    seconds = measured()
    rows = []
    for name in crates.names:
        *times, count = seconds.get(name, [0] * 4)
        rows.append([f"`{name}`", *(str(number or "") for number in (*times, count))])
    *sums, count = (sum(column) for column in zip(*seconds.values()))
    rows.append(["all, minutes", *(f"{number / 60:.0f}" for number in sums), str(count)])
    return table(["Crate", *(f"{part}, s:" for part in PARTS), "mutation tests:"], rows)


def changes(crates):
    """Returns for each crate what a change in it proves again, with the CPU minutes of all of that."""
    seconds = measured()
    rows = [("a change in  minutes", "proves these crates again, besides its own")]
    for name in crates.names:
        above = crates.above(name)
        spared = [other for other in crates.names if other not in above and other != name]
        minutes = round(sum(sum(seconds.get(crate, [0])[:3]) for crate in [name, *above]) / 60)
        words = above if len(above) <= len(spared) else ["all", "except", *spared]
        rows.append((f"{name:11}  {minutes:>7}", " ".join(words) or "none"))
    return wrapped_rows(rows)


def faults(crates):
    for name, numbers in measured().items():
        if name not in crates.names:
            yield f"{PRICES}: {name} is no crate"
        if len(numbers) != 4:
            yield f"{PRICES}: {name} has {len(numbers)} numbers, not 4"

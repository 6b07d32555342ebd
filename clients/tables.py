"""Tables in Markdown: lists of a head and rows, each a list of cells."""
import re


def cells(line):
    return [cell.strip() for cell in line.strip().strip("|").split("|")]


def tables_in(text):
    """The tables of a text in Markdown: each its head and its rows."""
    found, lines = [], text.splitlines()
    for place, line in enumerate(lines):
        if not line.startswith("|") or set(line) <= set("|- "):
            continue
        if place + 1 < len(lines) and set(lines[place + 1]) <= set("|- ") and lines[place + 1].startswith("|"):
            found.append([cells(line)])
        elif found:
            found[-1].append(cells(line))
    return found


def kept(table, heads=None, labels=None):
    """A table with these columns, and these rows: each a pair of what was printed and what is said."""
    if not table:
        return []
    heads = [(head, said) for head, said in heads or [(head, head) for head in table[0]] if head in table[0]]
    rows = {row[0]: row for row in table[1:]}
    labels = labels or [(row[0], row[0]) for row in table[1:]]
    columns = [table[0].index(head) for head, _ in heads]
    return [[said for _, said in heads]] + [
        [said] + [rows[label][place] for place in columns[1:]] for label, said in labels if label in rows]


def joined(tables, names):
    """Tables with the same labels as one, whose columns have the names of their tables."""
    tables = [(table, name) for table, name in zip(tables, names) if table]
    if not tables:
        return []
    head, rows = [tables[0][0][0][0]], {row[0]: [row[0]] for table, _ in tables for row in table[1:]}
    for table, name in tables:
        found = {row[0]: row[1:] for row in table[1:]}
        head += [f"{column}, {name}" if column else name for column in table[0][1:]]
        for label, row in rows.items():
            row.extend(found.get(label, [""] * (len(table[0]) - 1)))
    return [head, *rows.values()]


def first_number(cell):
    found = re.search(r"\d[\d,]*(?:\.\d+)?", cell)
    return float(found[0].replace(",", "")) if found else None


def medians(table):
    """A table whose cells have their first number alone, and not the least and the most in brackets."""
    return [[cell.partition(" (")[0] if at else cell for at, cell in enumerate(row)] for row in table]


def markdown(table):
    head, *rows = [["–" if at and not cell else cell for at, cell in enumerate(row)] for row in table]
    return "\n".join(["| " + " | ".join(head) + " |", "|---" * len(head) + "|"]
                     + ["| " + " | ".join(row) + " |" for row in rows])

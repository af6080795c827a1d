"""Which two items of a cyclic query may be joined first, and the queries and the call that do it.

Nothing to run: tools/hints.py imports it.
"""
import re
import shlex

from query_text import selects_of, written
from table_files import COLUMNS, header_of


class Ties:
    """The columns of a select that are equal by its conditions, as sets of item numbers with
    shared classes."""

    def __init__(self, select, headers):
        self.select, self.headers = select, headers
        self.aliases = [alias for _, alias, _ in select.items]
        self.leaders, self.bound = {}, set()
        for left, right in select.conditions:
            self.join(self.node(left), self.node(right))
        members = {}
        for it in self.leaders:
            members.setdefault(self.leader(it), set()).add(it)
        self.classes = [
            {item for item, _ in those}
            for those in members.values()
            if not any(it[0] is None for it in those)
        ]

    def item_of(self, column):
        """The number of the item that a column belongs to, from 0."""
        alias, name = column
        if alias is not None:
            return self.aliases.index(alias)
        return next(number for number, header in enumerate(self.headers) if name in header)

    def node(self, side):
        return (None, side) if isinstance(side, str) else (self.item_of(side), side[1])

    def leader(self, node):
        self.leaders.setdefault(node, node)
        while self.leaders[node] != node:
            node = self.leaders[node]
        return node

    def join(self, left, right):
        self.leaders[self.leader(left)] = self.leader(right)

    def shared(self):
        """For each item, the numbers of the classes that join it with another."""
        kept = [those for those in self.classes if len(those) > 1]
        return [
            {number for number, those in enumerate(kept) if item in those}
            for item in range(len(self.aliases))
        ]


def is_acyclic(parts):
    """Whether items with these sets of classes can be removed one after another as ears."""
    parts = list(parts)
    while len(parts) > 1:
        for place, part in enumerate(parts):
            others = parts[:place] + parts[place + 1 :]
            outside = part & set().union(*others)
            if any(outside <= other for other in others):
                parts = others
                break
        else:
            return False
    return True


def pair_of(shared, core):
    """The two items to be joined first: if it can be, such that no cycle is left, and side by
    side, which keeps the order of ties."""
    pairs = []
    for first in core:
        for second in core:
            if first < second and shared[first] & shared[second]:
                rest = [it for place, it in enumerate(shared) if place not in (first, second)]
                is_left = not is_acyclic([shared[first] | shared[second], *rest])
                pairs.append((is_left, second - first > 1, first, second))
    return min(pairs) if pairs else None


class Rewriting:
    """A select with two of its items joined first into a table of their own."""

    def __init__(self, ties, first, second):
        self.ties, self.select, self.pair = ties, ties.select, (first, second)
        aliases = [ties.aliases[it] for it in self.pair]
        self.name = bare("_".join(aliases))
        taken = {*ties.aliases, *(table for table, _, _ in self.select.items)}
        while self.name in taken:
            self.name += "_pair"
        self.columns = {}
        if self.select.columns is None:
            for it in self.pair:
                for name in ties.headers[it]:
                    self.outer((ties.aliases[it], name))

    def is_inner(self, side):
        return isinstance(side, str) or self.ties.item_of(side) in self.pair

    def full(self, column):
        """A column with its alias, as a query writes it."""
        return f"{written(self.ties.aliases[self.ties.item_of(column)])}.{written(column[1])}"

    def inner(self, side):
        return side if isinstance(side, str) else self.full(side)

    def outer(self, side):
        """What stands for a column or a constant in the query over the new table."""
        if isinstance(side, str) or not self.is_inner(side):
            return self.inner(side)
        key = (self.ties.item_of(side), side[1])
        if key not in self.columns:
            name = bare(f"{self.ties.aliases[key[0]]}_{side[1]}")
            while name in (it for _, it in self.columns.values()):
                name += "_2"
            self.columns[key] = (self.full(side), name)
        return f"{self.name}.{self.columns[key][1]}"

    def is_within(self, condition):
        return all(self.is_inner(it) for it in condition)

    def rest(self):
        """The lines of the query over the new table."""
        select, keys = self.select, []
        chosen = (
            "*" if select.columns is None else ", ".join(self.outer(it) for it in select.columns)
        )
        items = [
            self.item(number) for number in range(len(select.items)) if number not in self.pair
        ]
        items.insert(self.pair[0], written(self.name))
        where = [
            f"{self.outer(a)} = {self.outer(b)}"
            for a, b in select.conditions
            if not self.is_within((a, b))
        ]
        for terms, is_descending in select.keys:
            text = " ".join(f"{sign} {self.outer(column)}" for sign, column in terms)
            keys.append(
                (text[2:] if text.startswith("+ ") else text) + (" DESC" if is_descending else "")
            )
        return lines_of(chosen, items, where, keys, select.limit)

    def own(self):
        """The lines of the query that makes the new table."""
        where = [
            f"{self.inner(a)} = {self.inner(b)}"
            for a, b in self.select.conditions
            if self.is_within((a, b))
        ]
        return lines_of(
            ", ".join(it for it, _ in self.columns.values()),
            [self.item(it) for it in self.pair],
            where,
            [],
            None,
        )

    def item(self, number):
        table, alias, _ = self.select.items[number]
        return written(table) if table == alias else f"{written(table)} AS {written(alias)}"


def bare(name):
    return re.sub("^([0-9])", r"_\1", re.sub("[^A-Za-z0-9_]+", "_", name))


def lines_of(chosen, items, where, keys, limit):
    lines = [f"SELECT {chosen}", f"FROM {', '.join(items)}"]
    lines += [f"WHERE {' AND '.join(where)}"] if where else []
    lines += [f"ORDER BY {', '.join(keys)}"] if keys else []
    return lines + ([f"LIMIT {limit}"] if limit else [])


def first_pair(call, query, core):
    """The lines that show how two items of the core are joined first, or none."""
    select = selects_of(query)[(query.branch or 1) - 1]
    headers = [header_of(call.file_of(table) or "") for table, _, _ in select.items]
    ties = Ties(select, headers)
    found = pair_of(ties.shared(), [it - 1 for it in core])
    if found is None or select.columns is None and found[1]:
        return []
    is_left, is_apart, first, second = found
    made = Rewriting(ties, first, second)
    rest, own = made.rest(), made.own()
    tables = {select.items[it][0]: call.file_of(select.items[it][0]) for it in (first, second)}
    files = " ".join(shlex.quote(f"{table}={file}") for table, file in tables.items())
    names = ",".join(name for _, name in made.columns.values())
    shell = f"anyk run pair.sql {files} | sed '1s/.*/{names}/' > {made.name}.csv"
    if None in tables.values() or len(made.columns) > COLUMNS:
        return []
    if not all(it.isprintable() for it in [*rest, *own, shell]):
        return []
    a, b = (ties.aliases[it] for it in made.pair)
    return [
        f"{written(a)} and {written(b)} may be joined first, into a table {made.name}. This "
        "is its query, in pair.sql:",
        *(f"    {it}" for it in own),
        "it is made by:",
        f"    {shell}",
        f"and with {made.name}={made.name}.csv the query is"
        + (", though cyclic still:" if is_left else ":"),
        *(f"    {it}" for it in rest),
        *(["(answers of equal rank may come in another order)"] if is_apart else []),
    ]

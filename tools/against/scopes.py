"""Tables and their views, the columns of a statement's sources, and what trees are on a row of them."""
from dataclasses import dataclass

from refusals import refuse
from trees import Aggregate, Arithmetic, Both, Column, Comparison, Constant, Either, IsNull, Name, Not, Operator, Place
from values import GREATEST, LEAST


WM_VALID = Column(0, "WM_VALID", "period")


@dataclass
class Table:
    name: str
    columns: list
    key: int | None
    is_versioned: bool = False
    has_periods: bool = False
    has_history: bool = False

    def shown_columns(self):
        """What '*' gives: the declared columns, and WM_VALID where each row has a period."""
        return self.columns + [WM_VALID] * self.has_periods

    def keyed(self, key, row):
        """A row, or where there is none its key among NULLs."""
        return row if row is not None else tuple(key if place == self.key else None for place in range(len(self.columns)))


def added(names):
    return [Column(0, name, "time" if name.endswith("TIME") else "text") for name in names.split()]


@dataclass
class View:
    """The conflicts of a table, its differences, its history, or its locks."""
    name: str
    table: Table

    @property
    def kind(self):
        return self.name[-4:]

    def shown_columns(self):
        if self.kind == "HIST":
            return self.table.shown_columns() + added("WM_WORKSPACE WM_USERNAME WM_OPTYPE WM_CREATETIME WM_RETIRETIME")
        if self.kind == "LOCK":
            keys = [column for place, column in enumerate(self.table.columns) if place == self.table.key]
            return [*keys, *[WM_VALID] * self.table.has_periods, *added("WM_WORKSPACE WM_LOCKMODE WM_USERNAME")]
        if self.kind == "DIFF":
            return self.table.shown_columns() + added("WM_DIFFVER WM_CODE")
        return added("WM_WORKSPACE") + self.table.shown_columns() + added("WM_DELETED")


class Scope:
    """The columns of the sources of a statement, one behind the other."""

    def __init__(self, sources):
        self.sources = sources
        self.columns = [(label, column) for label, table in sources for column in table.shown_columns()]

    def places(self, name):
        return [place for place, (label, column) in enumerate(self.columns)
                if column.name == name.name and name.source in (None, label)]

    def is_lacking(self, tree):
        """Whether it is WM_VALID of sources that have no periods."""
        return (isinstance(tree, Name) and tree.name == "WM_VALID" and not self.places(tree)
                and any(tree.source in (None, label) for label, _ in self.sources))

    def lacking(self, tree):
        """Each WM_VALID of a source without periods, with the table that is told; the last one where no source stands before it."""
        return [(name.at, [table.name for label, table in self.sources if name.source == label][0] if name.source else self.sources[-1][1].name)
                for name in names_of(tree) if self.is_lacking(name)]

    def place(self, name):
        return self.places(name)[0]

    def bad_names(self, tree):
        """The names of a tree that are no column or more than one, with their places in the line."""
        return [(name.at, name.name) for name in names_of(tree) if len(self.places(name)) != 1 and not self.is_lacking(name)]

    def kind(self, tree):
        if isinstance(tree, Constant):
            return tree.kind
        if isinstance(tree, (Name, Place)) and tree.name == "WM_VALID":
            return "time" if tree.end else "period"
        if isinstance(tree, Place):
            return self.columns[tree.place][1].kind
        if isinstance(tree, Name):
            return self.columns[self.place(tree)][1].kind
        if isinstance(tree, Aggregate):
            return "number" if tree.word in ("COUNT", "SUM") else self.kind(tree.operand)
        return "number"

    def bad_kinds(self, tree):
        """The marks and words of a tree whose operands are of kinds that do not go together."""
        found = []
        for part in parts_of(tree):
            if isinstance(part, Arithmetic):
                if any(self.kind(operand) not in ("number", "null") for operand in part.operands):
                    found.append((part.mark_at, part.mark))
            elif isinstance(part, Aggregate):
                if part.word == "SUM" and self.kind(part.operand) not in ("number", "null"):
                    found.append((part.at, part.word))
                if part.word in ("MIN", "MAX") and self.kind(part.operand) == "period":
                    found.append((part.at, part.word))
            elif isinstance(part, Comparison):
                if any(not go_together(self.kind(part.left), self.kind(other)) for other in part.others):
                    found.append((part.at, part.mark))
        return found

    def misfits(self, column, tree):
        """What is wrong with the kinds of a value for a column."""
        is_good = self.kind(tree) == "period" if column is WM_VALID else go_together(column.kind, self.kind(tree))
        return ([] if is_good else [(tree.at, column.name)]) + self.bad_kinds(tree)

    # What trees are on a row of the scope

    def value(self, tree, row):
        if isinstance(tree, Constant):
            return tree.value
        if isinstance(tree, (Name, Place)):
            value = row[tree.place if isinstance(tree, Place) else self.place(tree)]
            return {None: value, "VALIDFROM": value.start, "VALIDTILL": value.till}[tree.end] if tree.name == "WM_VALID" else value
        if isinstance(tree, Operator):
            return int(is_so(tree.word, *(self.value(operand, row) for operand in tree.operands)))
        values = [self.value(operand, row) for operand in tree.operands]
        if None in values:
            return None
        if tree.mark == "*":
            return in_range(values[0] * values[1])
        if tree.mark == "+":
            return in_range(values[0] + values[1])
        return in_range(values[0] - values[1] if len(values) == 2 else -values[0])

    def truth(self, tree, row):
        """True, False or None for unknown."""
        if tree is None:
            return True
        if isinstance(tree, Not):
            return negation(self.truth(tree.inner, row))
        if isinstance(tree, (Both, Either)):
            truths = [self.truth(tree.left, row), self.truth(tree.right, row)]
            return conjunction(truths) if isinstance(tree, Both) else disjunction(truths)
        left = self.value(tree.left, row)
        if isinstance(tree, IsNull):
            return (left is None) != tree.negated
        others = [self.value(other, row) for other in tree.others]
        if tree.mark == "IN":
            truth = disjunction([compared("=", left, other) for other in others])
        elif tree.mark == "BETWEEN":
            truth = conjunction([compared(">=", left, others[0]), compared("<=", left, others[1])])
        else:
            truth = compared(tree.mark, left, others[0])
        return negation(truth) if tree.negated else truth


def parts_of(tree):
    """A tree and all trees within it."""
    inner = {Arithmetic: lambda: tree.operands, Operator: lambda: tree.operands, Aggregate: lambda: [tree.operand] if tree.operand else [],
             Comparison: lambda: [tree.left, *tree.others], IsNull: lambda: [tree.left], Not: lambda: [tree.inner],
             Both: lambda: [tree.left, tree.right], Either: lambda: [tree.left, tree.right]}.get(type(tree), list)()
    return [tree] + [part for one in inner for part in parts_of(one)]


def names_of(tree):
    return [part for part in parts_of(tree) if isinstance(part, Name)]


def go_together(kind, other):
    return kind != "period" and other != "period" and (kind == other or "null" in (kind, other))


def in_range(number):
    if not LEAST <= number <= GREATEST:
        refuse("WM-064 out of range")
    return number


def negation(truth):
    return None if truth is None else not truth


def conjunction(truths):
    return False if False in truths else None if None in truths else True


def disjunction(truths):
    return True if True in truths else None if None in truths else False


def is_so(operator, p, q):
    """The question of an operator about two periods."""
    return {"WM_OVERLAPS": p.start < q.till and q.start < p.till, "WM_CONTAINS": p.start <= q.start and q.till <= p.till,
            "WM_MEETS": p.till == q.start, "WM_EQUALS": p.start == q.start and p.till == q.till,
            "WM_LESSTHAN": p.till < q.start, "WM_GREATERTHAN": p.start > q.till}[operator]


def compared(mark, left, right):
    if left is None or right is None:
        return None
    return {"=": left == right, "<>": left != right, "!=": left != right, "<": left < right, "<=": left <= right,
            ">": left > right, ">=": left >= right}[mark]

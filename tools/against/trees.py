"""What a line says, as a tree."""
from dataclasses import dataclass, field

# 'at' is the column of the first token.


@dataclass
class Constant:
    at: int
    kind: str  # number, text, time, period, boolean or null
    value: object


@dataclass
class Name:
    at: int
    source: str | None
    name: str
    end: str | None = None  # VALIDFROM or VALIDTILL, behind WM_VALID


@dataclass
class Place:
    """A column alone, by its place among those of all sources."""
    at: int
    place: int
    name: str
    end: str | None = None


@dataclass
class Arithmetic:
    at: int
    mark_at: int
    mark: str
    operands: list


@dataclass
class Operator:
    """A question about two periods."""
    at: int
    word: str
    operands: list


@dataclass
class Aggregate:
    at: int
    word: str
    operand: object  # None for COUNT(*)


@dataclass
class Comparison:
    """One operand compared with others: by a mark, IN or BETWEEN."""
    at: int  # of the mark or word
    mark: str
    left: object
    others: list
    negated: bool = False


@dataclass
class IsNull:
    left: object
    negated: bool


@dataclass
class Not:
    inner: object


@dataclass
class Both:
    left: object
    right: object


@dataclass
class Either:
    left: object
    right: object


@dataclass
class Connect:
    session: str
    user: str


@dataclass
class Disconnect:
    session: str


@dataclass
class At:
    when: Constant


@dataclass
class Said:
    session: str
    statement: object


@dataclass
class Column:
    at: int
    name: str
    kind: str = "number"
    size: int = 0
    not_null: bool = False


@dataclass
class Create:
    table: str
    columns: list
    keys: list | None = None  # of Name


@dataclass
class Insert:
    table: str
    names: list | None
    values: list


@dataclass
class Update:
    table: str
    settings: list  # of (Name, expression)
    condition: object


@dataclass
class Delete:
    table: str
    condition: object


@dataclass
class Source:
    at: int
    table: str
    label: str


@dataclass
class Item:
    expression: object
    label: str | None


@dataclass
class Order:
    by: object  # a Constant or a Name
    descending: bool


@dataclass
class Select:
    distinct: bool
    star_at: int | None
    items: list
    sources: list
    conditions: list  # those of ON and WHERE
    groups: list | None
    orders: list


@dataclass
class Call:
    procedure: str
    given: dict = field(default_factory=dict)  # parameter to Constant, in the order of the line
    condition: object = None  # of the where_clause

"""A line is read as its tree, or the token is told at which it is none of the language."""

from tokens import OPERATORS, tokens_of
from trees import (
    Aggregate, Arithmetic, At, Both, Call, Column, Comparison, Connect, Constant, Create, Delete, Disconnect, Either,
    Insert, IsNull, Item, Name, Not, Operator, Order, Said, Select, Source, Update,
)
from values import DATE_FORMS, END, GREATEST, Instant, MASKS, Period, TIMESTAMP_FORMS, instant

# The arguments of SetDiffVersions have no names.
CALLS = {
    "ENABLEVERSIONING": "TABLE_NAME HIST ISTOPOLOGY VALIDTIME", "CREATEWORKSPACE": "WORKSPACE ISREFRESHED DESCRIPTION",
    "CREATESAVEPOINT": "WORKSPACE SAVEPOINT_NAME DESCRIPTION", "GOTOWORKSPACE": "WORKSPACE", "GOTOSAVEPOINT": "SAVEPOINT_NAME",
    "SETVALIDTIME": "VALIDFROM VALIDTILL", "ROLLBACKTOSP": "WORKSPACE SAVEPOINT_NAME", "REMOVEWORKSPACE": "WORKSPACE",
    "REFRESHWORKSPACE": "WORKSPACE", "MERGEWORKSPACE": "WORKSPACE CREATE_SAVEPOINT REMOVE_WORKSPACE",
    "SETCONFLICTWORKSPACE": "WORKSPACE", "BEGINRESOLVE": "WORKSPACE", "COMMITRESOLVE": "WORKSPACE", "ROLLBACKRESOLVE": "WORKSPACE",
    "RESOLVECONFLICTS": "WORKSPACE TABLE_NAME WHERE_CLAUSE KEEP", "FREEZEWORKSPACE": "WORKSPACE FREEZEMODE FREEZEWRITER",
    "UNFREEZEWORKSPACE": "WORKSPACE", "SETLOCKINGON": "LOCKMODE", "SETLOCKINGOFF": "",
    "LOCKROWS": "WORKSPACE TABLE_NAME WHERE_CLAUSE LOCK_MODE", "UNLOCKROWS": "WORKSPACE TABLE_NAME WHERE_CLAUSE",
    "GOTODATE": "IN_DATE", "SETDIFFVERSIONS": "1 2 3 4",
}
PARAMETERS = {procedure: names.split() for procedure, names in CALLS.items()}
VIEWS = ("_CONF", "_DIFF", "_HIST", "_LOCK")
DEEPEST = 64


class BadToken(Exception):
    def __init__(self, token):
        self.column = token.column


class Parser:
    """Reads a line from left to right. Each choice is made by the next token (or two), so the token at which reading stops is the
    first that no form continues."""

    def __init__(self, line, moment):
        self.tokens, self.place, self.depth = tokens_of(line), 0, 0
        self.moment = moment
        self.bad_literals = []  # columns
        self.has_empty_period = False

    @property
    def next(self):
        return self.tokens[self.place]

    def sees(self, *values):
        return self.next.kind in ("word", "mark") and self.next.value in values

    def sees_behind(self, value):
        behind = self.tokens[min(self.place + 1, len(self.tokens) - 1)]
        return behind.kind == "mark" and behind.value == value

    def step(self):
        self.place += 1
        return self.tokens[self.place - 1]

    def take(self, *values):
        if not self.sees(*values):
            raise BadToken(self.next)
        return self.step()

    def took(self, value):
        if self.sees(value):
            self.step()
            return True
        return False

    def take_kind(self, kind):
        if self.next.kind != kind:
            raise BadToken(self.next)
        return self.step()

    def take_id(self):
        if not self.next.is_id():
            raise BadToken(self.next)
        return self.step()

    def take_number(self):
        token = self.take_kind("number")
        if token.value > GREATEST:
            self.bad_literals.append(token.column)
        return token

    def some(self, item):
        """item {"," item}"""
        found = [item()]
        while self.took(","):
            found.append(item())
        return found

    def in_brackets(self, item):
        self.take("(")
        found = item()
        self.take(")")
        return found

    def deeper(self, inner):
        """Reads a token that opens a level, and what stands within."""
        if self.depth == DEEPEST:
            raise BadToken(self.next)
        self.depth += 1
        self.step()
        found = inner()
        self.depth -= 1
        return found

    # Lines

    def line(self):
        if self.sees("CONNECT", "DISCONNECT", "AT") and not self.sees_behind(":"):
            word = self.step().value
            if word == "AT":
                found = At(self.when())
            elif word == "CONNECT":
                found = Connect(self.take_id().value, self.take_id().value)
            else:
                found = Disconnect(self.take_id().value)
        else:
            session = self.step() if self.sees("CONNECT", "DISCONNECT", "AT") else self.take_id()
            self.take(":")
            found = Said(session.value, self.statement())
            self.took(";")
        self.take_kind("end")
        return found

    def statement(self):
        word = self.take("CREATE", "INSERT", "UPDATE", "DELETE", "SELECT", "EXECUTE", "EXEC").value
        return {"CREATE": self.create, "INSERT": self.insert, "UPDATE": self.update, "DELETE": self.delete,
                "SELECT": self.select, "EXECUTE": self.call, "EXEC": self.call}[word]()

    # CREATE TABLE

    def create(self):
        self.take("TABLE")
        made = Create(self.take_id().value, [])
        self.in_brackets(lambda: self.some(lambda: self.create_item(made)))
        return made

    def create_item(self, made):
        if self.sees("CONSTRAINT", "PRIMARY"):
            if self.took("CONSTRAINT"):
                self.take_id()
            self.primary_key(made, lambda: self.in_brackets(lambda: self.some(self.column_name)))
            return
        name = self.column_name()
        column = Column(name.at, name.name)
        made.columns.append(column)
        self.column_type(column)
        while self.sees("PRIMARY", "NOT"):
            if self.sees("PRIMARY"):
                self.primary_key(made, lambda: [name])
            elif column.not_null:
                raise BadToken(self.next)
            else:
                self.step()
                self.take("NULL")
                column.not_null = True

    def primary_key(self, made, names):
        if made.keys is not None:
            raise BadToken(self.next)
        self.take("PRIMARY")
        self.take("KEY")
        made.keys = names()

    def column_name(self):
        token = self.step() if self.sees("VALIDFROM", "VALIDTILL") else self.take_id()
        return Name(token.column, None, token.value)

    def column_type(self, column):
        word = self.take("NUMBER", "INTEGER", "VARCHAR2", "DATE", "TIMESTAMP").value
        if word == "NUMBER" and self.took("("):
            self.take_number()
            if self.took(","):
                if self.next.value != 0:
                    raise BadToken(self.next)
                self.take_kind("number")
            self.take(")")
        elif word == "VARCHAR2":
            size = self.in_brackets(lambda: self.take_kind("number"))
            if not 1 <= size.value <= 2000:
                self.bad_literals.append(size.column)
            column.size = size.value
        column.kind = {"NUMBER": "number", "INTEGER": "number", "VARCHAR2": "text"}.get(word, "time")

    # INSERT, UPDATE, DELETE

    def insert(self):
        self.take("INTO")
        table, names = self.take_id().value, None
        if self.sees("("):
            names = self.in_brackets(lambda: self.some(self.any_column))
        self.take("VALUES")
        return Insert(table, names, self.in_brackets(lambda: self.some(self.expression)))

    def update(self):
        table = self.take_id().value
        self.take("SET")
        return Update(table, self.some(self.setting), self.where())

    def setting(self):
        name = self.any_column()
        self.take("=")
        return name, self.expression()

    def delete(self):
        self.took("FROM")
        return Delete(self.take_id().value, self.where())

    def where(self):
        return self.condition() if self.took("WHERE") else None

    def any_column(self):
        if self.sees("WM_VALID"):
            return Name(self.next.column, None, self.step().value)
        return self.column_name()

    # SELECT

    def select(self):
        made = Select(self.took("DISTINCT"), None, [], [], [], None, [])
        if self.sees("*"):
            made.star_at = self.step().column
        else:
            made.items = self.some(self.item)
        has_aggregate = any(isinstance(item.expression, Aggregate) for item in made.items)
        self.take("FROM")
        self.source(made)
        while self.sees(",", "INNER", "JOIN"):
            if has_aggregate or len(made.sources) == 4:
                raise BadToken(self.next)
            if self.took(","):
                self.source(made)
                continue
            self.took("INNER")
            self.take("JOIN")
            self.source(made)
            self.take("ON")
            made.conditions.append(self.condition())
        condition = self.where()
        if condition is not None:
            made.conditions.append(condition)
        if self.sees("GROUP"):
            if len(made.sources) > 1:
                raise BadToken(self.next)
            self.step()
            self.take("BY")
            made.groups = self.some(self.name)
        if self.took("ORDER"):
            self.take("BY")
            made.orders = self.some(self.order)
        return made

    def item(self):
        expression = self.aggregate() if self.sees("COUNT", "SUM", "MIN", "MAX") else self.expression()
        return Item(expression, self.take_id().value if self.took("AS") else None)

    def aggregate(self):
        word = self.step()
        self.take("(")
        operand = None
        if not (word.value == "COUNT" and self.took("*")):
            operand = self.expression()
        self.take(")")
        return Aggregate(word.column, word.value, operand)

    def source(self, made):
        table = self.take_id()
        label = self.step().value if self.next.is_id() else table.value
        made.sources.append(Source(table.column, table.value, label))

    def order(self):
        if self.next.kind == "number":
            token = self.take_number()
            by = Constant(token.column, "number", token.value)
        else:
            by = self.name()
        if self.sees("ASC", "DESC"):
            return Order(by, self.step().value == "DESC")
        return Order(by, False)

    # Expressions

    def expression(self):
        found = self.term()
        while self.sees("+", "-"):
            mark = self.step()
            found = Arithmetic(found.at, mark.column, mark.value, [found, self.term()])
        return found

    def term(self):
        found = self.factor()
        while self.sees("*"):
            mark = self.step()
            found = Arithmetic(found.at, mark.column, mark.value, [found, self.factor()])
        return found

    def factor(self):
        at = self.next.column
        if self.sees("-"):
            return Arithmetic(at, at, "-", [self.deeper(self.factor)])
        if self.sees("("):
            found = self.deeper(self.expression)
            self.take(")")
            found.at = at
            return found
        return self.operand()

    def operand(self):
        if self.next.kind == "word" and self.next.value in OPERATORS and self.sees_behind("("):
            word = self.step()
            self.take("(")
            left = self.operator_period()
            self.take(",")
            right = self.operator_period()
            self.take(")")
            return Operator(word.column, word.value, [left, right])
        if self.next.is_id() or self.sees("WM_VALID", "VALIDFROM", "VALIDTILL"):
            return self.name()
        return self.constant()

    def operator_period(self):
        if self.sees("WMSYS", "WM_PERIOD"):
            return self.period()
        at, source = self.next.column, None
        if self.next.is_id():
            source = self.step().value
            self.take(".")
        return Name(at, source, self.take("WM_VALID").value)

    def name(self):
        at, source = self.next.column, None
        if self.next.is_id() and self.sees_behind("."):
            source = self.step().value
            self.step()
        name, end = self.any_column().name, None
        if name == "WM_VALID" and self.took("."):
            end = self.take("VALIDFROM", "VALIDTILL").value
        return Name(at, source, name, end)

    def constant(self):
        at = self.next.column
        if self.took("-"):
            return Constant(at, "number", -self.take_number().value)
        if self.next.kind == "number":
            return Constant(at, "number", self.take_number().value)
        if self.next.kind == "text":
            text = self.step().value
            return Constant(at, "text", text) if text else Constant(at, "null", None)
        if self.took("NULL"):
            return Constant(at, "null", None)
        if self.sees("WMSYS", "WM_PERIOD"):
            return self.period()
        return self.end_of_period()

    def end_of_period(self):
        at = self.next.column
        if self.took("SYSDATE"):
            return Constant(at, "time", self.moment)
        if self.took("DBMS_WM"):
            self.take(".")
            self.take("UNTIL_CHANGED")
            return Constant(at, "time", Instant(END))
        return self.when()

    def period(self):
        at = self.next.column
        if self.took("WMSYS"):
            self.take(".")
        self.take("WM_PERIOD")
        self.take("(")
        start = self.end_of_period().value
        self.take(",")
        till = self.end_of_period().value
        self.take(")")
        # An end that is no time is a bad literal, of which the line is told before.
        if start is None or till is None:
            return Constant(at, "period", None)
        self.has_empty_period |= start >= till
        return Constant(at, "period", Period(start, till))

    def when(self):
        word = self.take("DATE", "TIMESTAMP", "TO_DATE")
        if word.value == "TO_DATE":
            self.take("(")
            text = self.take_kind("text")
            self.take(",")
            if self.next.kind != "text" or self.next.value not in MASKS:
                raise BadToken(self.next)
            forms = [MASKS[self.step().value]]
            self.take(")")
        else:
            text = self.take_kind("text")
            forms = DATE_FORMS if word.value == "DATE" else TIMESTAMP_FORMS
        value = instant(text.value, forms)
        if value is None:
            self.bad_literals.append(text.column)
        return Constant(word.column, "time", value)

    # Conditions

    def condition(self):
        found = self.conjunction()
        while self.took("OR"):
            found = Either(found, self.conjunction())
        return found

    def conjunction(self):
        found = self.negation()
        while self.took("AND"):
            found = Both(found, self.negation())
        return found

    def negation(self):
        if self.sees("NOT"):
            return Not(self.deeper(self.negation))
        if self.sees("("):
            found = self.deeper(self.condition)
            self.take(")")
            return found
        return self.test()

    def test(self):
        left = self.operand()
        if self.took("IS"):
            negated = self.took("NOT")
            self.take("NULL")
            return IsNull(left, negated)
        if self.sees("=", "<>", "!=", "<", "<=", ">", ">="):
            mark = self.step()
            return Comparison(mark.column, mark.value, left, [self.operand()])
        negated = self.took("NOT")
        word = self.take("IN", "BETWEEN")
        if word.value == "IN":
            return Comparison(word.column, "IN", left, self.in_brackets(lambda: self.some(self.constant)), negated)
        least = self.operand()
        self.take("AND")
        return Comparison(word.column, "BETWEEN", left, [least, self.operand()], negated)

    # Calls

    def call(self):
        self.take("DBMS_WM")
        self.take(".")
        if self.next.kind != "word" or self.next.value not in PARAMETERS:
            raise BadToken(self.next)
        made = Call(self.step().value)
        if self.took("("):
            by_name, by_place = list(PARAMETERS[made.procedure]), list(PARAMETERS[made.procedure])
            if not self.sees(")"):
                self.some(lambda: self.argument(made, by_name, by_place))
            self.take(")")
        return made

    def argument(self, made, by_name, by_place):
        """Takes from both lists the parameter that the argument gives; behind a named one no place is left."""
        first = self.next
        if first.is_id() or self.sees("VALIDFROM", "VALIDTILL"):
            if first.value not in by_name:
                raise BadToken(first)
            parameter = self.step().value
            self.take("=>")
            by_place.clear()
        elif by_place:
            parameter = by_place.pop(0)
            if made.procedure == "CREATEWORKSPACE" and parameter == "ISREFRESHED" and self.next.kind == "text" and self.next.value:
                parameter = "DESCRIPTION"
                by_place.clear()
        else:
            raise BadToken(first)
        by_name.remove(parameter)
        if parameter == "WHERE_CLAUSE" and self.next.kind == "text" and self.next.value:
            made.condition = self.where_clause(self.next)
        made.given[parameter] = self.argument_value()

    def argument_value(self):
        if self.sees("TRUE", "FALSE"):
            token = self.step()
            return Constant(token.column, "boolean", token.value == "TRUE")
        return self.constant()

    def where_clause(self, text):
        inner = Parser(text.value, self.moment)
        try:
            condition = inner.condition()
            inner.take_kind("end")
        except BadToken:
            raise BadToken(text) from None
        if inner.bad_literals:
            self.bad_literals.append(text.column)
        self.has_empty_period |= inner.has_empty_period
        return condition

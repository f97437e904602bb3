"""The relvars that a CSV file becomes: what is asked for, which rows are tuples, and statements."""
from dataclasses import dataclass, field

from .answers import Session
from .csv_columns import CellType, Column, Selector, kind_of, strays
from .csv_files import BadRow, wrong
from .definitions import Kind, definitions_of
from .literals import relation_of
from .scripts import dump_of, script_of

BUILT_IN = {kind.value for kind in CellType}
# So many answers of td fit in a pipe while it is still being asked.
ASKED_AT_ONCE = 1000
FIRST_DYNAMIC_CAUSE = 20


@dataclass
class Plan:
    """What is asked for: the relvar, its keys, and what is said of single attributes."""

    relvar: str
    keys: list[list[str]]
    kinds: dict[str, CellType]
    selectors: dict[str, Selector]
    # Of each attribute whose cells may be empty the name of the relvar that has them.
    optional: dict[str, str]
    # The dump of the database whose types are meant, and the heading to be met, where it is known.
    dump: str | None = None
    heading: list[str] = field(default_factory=list)
    # The tuples of the relvar that are there already.
    known: list[dict[str, str]] = field(default_factory=list)

    def check(self):
        """Whether the attributes that may lack a value can have relvars of their own."""
        in_keys = {one for names in self.keys for one in names}
        for attribute in self.optional:
            if not self.keys:
                raise wrong("--optional needs a --key, which its relvar has too")
            if attribute in in_keys:
                raise wrong(f"{attribute!r} is of a key, and no tuple may lack it")

    def take_database(self, file, is_insert):
        """Takes types, and of an INSERT headings and keys, from the database of a script."""
        self.dump, _ = dump_of(script_of([file]).text)
        known = definitions_of(self.dump)
        types = {one.name: one for one in known if one.kind == Kind.TYPE}
        relvars = {one.name: one for one in known if one.kind == Kind.BASE}
        targets = [self.relvar, *self.optional.values()]
        for name in targets:
            if is_insert and name not in relvars:
                raise wrong(f"{name!r} is no base relvar of {file}")
            if not is_insert and name in relvars:
                raise wrong(f"{name!r} is a relvar of {file} already: --insert adds to it")
        if is_insert:
            self.take_relvars([relvars[name] for name in targets], types)

    def take_relvars(self, targets, types):
        """Takes the heading, the keys and the tuples of the first, and the types of all."""
        first = targets[0]
        self.keys = self.keys or first.keys
        self.heading = [*dict(first.heading), *self.optional]
        names = list(dict(first.heading))
        tuples = relation_of(first.value + "\n").tuples
        self.known = [dict(zip(names, (value.literal for value in one))) for one in tuples]
        for target in targets:
            for attribute, kind in target.heading:
                self.take_type(attribute, kind, types)

    def take_type(self, attribute, kind, types):
        """Takes an attribute's type as the database has it."""
        if kind in BUILT_IN:
            self.kinds[attribute] = CellType[kind]
            return
        selector = self.selectors.get(attribute)
        if selector is not None and selector.type != kind:
            raise wrong(f"{attribute!r} is of the type {kind}, and not {selector.type}")
        if selector is not None:
            return
        component = only_component(types[kind]) if kind in types else None
        if component is None:
            raise wrong(f"{attribute!r} is of the type {kind}: --as says by which selector")
        self.selectors[attribute] = Selector(kind, [f"{kind}(", ")"])
        self.kinds.setdefault(attribute, component)


def only_component(definition):
    """The type of a type's only component, where that is one of a cell's."""
    (_, kind), *others = definition.components[0]
    return CellType[kind] if not others and kind in BUILT_IN else None


@dataclass(frozen=True)
class Relvar:
    """A relvar with its tuples, each the literals of its columns in order."""

    name: str
    columns: list[Column]
    keys: list[list[str]]
    tuples: list[list[str]]

    @property
    def heading(self):
        return ", ".join(f"{column.name} {column.type}" for column in self.columns)

    def value(self):
        """The parts of the literal of its tuples."""
        yield f"RELATION {{{self.heading}}} {{"
        between = "\n    "
        for literals in self.tuples:
            named = zip(self.columns, literals)
            parts = ", ".join(f"{column.name} {literal}" for column, literal in named)
            yield f"{between}TUPLE {{{parts}}}"
            between = ",\n    "
        yield "}"

    def definition(self):
        """The parts of the statement that defines it."""
        yield f"VAR {self.name} BASE RELATION {{{self.heading}}}\n  INIT ("
        yield from self.value()
        declared = "".join(f" KEY {{{', '.join(names)}}}" for names in self.keys)
        yield f"){declared};\n"


@dataclass
class Import:
    """The tuples that the rows of a table are."""

    plan: Plan
    table: object
    columns: list[Column] = field(default_factory=list)
    # Each row that is a tuple, with the literals of its cells; None is what an empty cell lacks.
    tuples: list[tuple] = field(default_factory=list)
    repeated: int = 0

    def check(self):
        """Whether what is asked for is in the table."""
        plan, table = self.plan, self.table
        if plan.heading:
            for name in table.names:
                if name not in plan.heading:
                    raise table.wrong(1, f"{name!r} is no attribute of {plan.relvar}")
            for name in plan.heading:
                if name not in table.names:
                    raise table.wrong(1, f"there is no {name!r}, which {plan.relvar} has")
        table.places([one for names in plan.keys for one in names])
        table.places([*plan.kinds, *plan.selectors, *plan.optional])

    def column(self, name):
        is_optional = name in self.plan.optional
        kind = self.plan.kinds.get(name)
        if kind is None:
            cells = self.table.cells(name)
            kind = kind_of([one for one in cells if one.strip() or not is_optional])
        return Column(name, kind, self.plan.selectors.get(name), is_optional)

    def read(self):
        """Makes tuples of the rows, and sets apart those that are none."""
        self.columns = [self.column(name) for name in self.table.names]
        made = [(row, *self.literals_of(row)) for row in self.table.rows]
        self.table.set_apart([BadRow(row, why) for row, _, why in made if why])
        self.tuples = [(row, literals) for row, literals, why in made if not why]
        self.drop(self.refused_selections())
        self.drop_repeated()
        for names in self.plan.keys:
            self.drop(self.agreeing(names))
            self.drop(self.agreeing_with_known(names))

    def literals_of(self, row):
        """The literals of a row's cells, and why it is none, where it isn't one."""
        literals = []
        for column, cell in zip(self.columns, row.cells):
            if column.is_left_out(cell):
                literals.append(None)
                continue
            literals.append(column.literal(cell))
            if literals[-1] is None:
                return None, f"{column.name} is {cell!r}, which is no {column.kind.value}"
        return literals, None

    def drop(self, bad):
        """Takes bad rows out of the tuples."""
        lines = {one.row.line for one in bad}
        if lines:
            self.tuples = [one for one in self.tuples if one[0].line not in lines]
            self.table.set_apart(bad)

    def refused_selections(self):
        """The rows with a value that td refuses to select, where its database is known."""
        bad = {}
        for place, column in enumerate(self.columns):
            if not column.selector or self.plan.dump is None:
                continue
            every = dict.fromkeys(literals[place] for _, literals in self.tuples)
            every.pop(None, None)
            refused = refusals(self.plan.dump, list(every))
            for row, literals in self.tuples:
                if literals[place] in refused:
                    why = f"{column.name}: {literals[place]}: {refused[literals[place]]}"
                    bad.setdefault(row.line, BadRow(row, why))
        return list(bad.values())

    def drop_repeated(self):
        """Takes each tuple once."""
        once = {}
        for row, literals in self.tuples:
            once.setdefault(tuple(literals), (row, literals))
        self.repeated = len(self.tuples) - len(once)
        self.tuples = list(once.values())

    def agreeing(self, names):
        """The rows that agree with one before them on the key of these names."""
        places, lines, bad = self.table.places(names), {}, []
        for row, literals in self.tuples:
            part = tuple(literals[place] for place in places)
            first = lines.setdefault(part, row.line)
            if first != row.line:
                why = f"it agrees with line {first} on the key {{{', '.join(names)}}}"
                bad.append(BadRow(row, why))
        return bad

    def agreeing_with_known(self, names):
        """The rows that agree on the key of these names with another tuple that is there."""
        known = {tuple(one[name] for name in names): one for one in self.plan.known}
        places, bad = self.table.places(names), []
        for row, literals in self.tuples:
            other = known.get(tuple(literals[place] for place in places))
            mine = dict(zip(self.table.names, literals))
            if other is not None and any(mine[name] != other[name] for name in other):
                key = ", ".join(names)
                why = f"it agrees with a tuple of {self.plan.relvar} on the key {{{key}}}"
                bad.append(BadRow(row, why))
        return bad

    def remarks(self):
        """What is to be said of the rows and columns, where nothing is wrong."""
        if self.repeated:
            yield f"rows left out that stand there already: {self.repeated}"
        for column in self.columns:
            is_guessed = column.kind == CellType.CHAR and column.name not in self.plan.kinds
            yield from strays(self.table, column) if is_guessed else ()
        for name, relvar in self.plan.optional.items():
            place = self.table.place(name)
            given = sum(literals[place] is not None for _, literals in self.tuples)
            yield f"{relvar} has the cells of {name} that are not empty: {given}"

    def part(self, relvar, names, keys):
        """A relvar of these attributes, of the tuples that have a value for each."""
        places = self.table.places(names)
        parts = [[literals[place] for place in places] for _, literals in self.tuples]
        whole = [part for part in parts if None not in part]
        return Relvar(relvar, [self.columns[place] for place in places], keys, whole)

    def relvars(self):
        """The relvar of all rows, and one for each attribute whose cells may be empty."""
        plan = self.plan
        required = [name for name in self.table.names if name not in plan.optional]
        yield self.part(plan.relvar, required, plan.keys)
        for name, relvar in plan.optional.items():
            yield self.part(relvar, [*plan.keys[0], name], [plan.keys[0]])


def refusals(dump, selections):
    """Those of the selections that td refuses in the dump's database, each with the refusal."""
    refused = {}
    with Session() as session:
        session.answer(dump.encode())
        for at in range(0, len(selections), ASKED_AT_ONCE):
            asked = selections[at : at + ASKED_AT_ONCE]
            # A comparison is answered on one line, whatever the value holds.
            questions = "".join(f"WRITE {one} = {one};\n" for one in asked)
            answers = session.answer(questions.encode()).decode().splitlines()
            refused |= {one: said for one, said in zip(asked, answers) if said != "TRUE"}
    for one, said in refused.items():
        if int(said.split()[1]) < FIRST_DYNAMIC_CAUSE:
            raise wrong(f"{one}: {said}")
    return refused


def statements_of(relvars, is_insert):
    """The parts of the statements that make the relvars, or that insert into those there are."""
    if is_insert:
        between = ""
        for relvar in relvars:
            yield f"{between}INSERT {relvar.name}\n  "
            yield from relvar.value()
            between = ",\n"
        yield ";\n"
        return
    for relvar in relvars:
        yield from relvar.definition()
    first, *others = relvars
    for other in others:
        key = f"{{{', '.join(other.keys[0])}}}"
        name = f"{other.name}_IN_{first.name}"
        yield f"CONSTRAINT {name} {other.name} {key} <= {first.name} {key};\n"

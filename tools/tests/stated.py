"""The examples of ./td test memory, with what each site shows, worked out by the rules of docs/LANGUAGE.md.

Each is the example of its name in docs/EXAMPLES.md, and that of its name in crates/library_calls, `call`.
"""
import struct
from typing import NamedTuple

SCRIPT = """
VAR S BASE RELATION { SNO CHAR, STATUS INTEGER, CITY CHAR } KEY { SNO };
VAR SP BASE RELATION { SNO CHAR, PNO CHAR, QTY INTEGER } KEY { SNO, PNO };
VAR LS VIRTUAL ( S WHERE CITY = 'London' );
CONSTRAINT C1 IS_EMPTY ( SP NOT MATCHING S );
CONSTRAINT C2 IS_EMPTY ( LS WHERE STATUS < 10 );
VAR MOST BASE RELATION { N INTEGER } KEY { };
CONSTRAINT C3 IS_EMPTY ( MOST WHERE N < COUNT ( LS ) );
"""

LONDON = "INSERT S RELATION { TUPLE { SNO 'S1', STATUS 20, CITY 'London' } };"
PARIS = "INSERT S RELATION { TUPLE { SNO 'S1', STATUS 20, CITY 'Paris' } };"
SHIPMENT = "INSERT SP RELATION { TUPLE { SNO 'S1', PNO 'P1', QTY 200 } };"
SECOND_SHIPMENT = "INSERT SP RELATION { TUPLE { SNO 'S1', PNO 'P2', QTY 100 } };"
BOUND = "MOST := RELATION { TUPLE { N 5 } };"
TUPLES = ", ".join(f"TUPLE {{ N {n} }}" for n in range(1, 301))
DEAR_BOUND = f"MOST := EXTEND TABLE_DEE ADD ( COUNT ( RELATION {{ {TUPLES} }} ) - 295 AS N );"
NO_SHIPMENTS = "DELETE SP;"
NO_BOUND = "MOST := RELATION { TUPLE { N 0 } };"
TO_LONDON = "UPDATE S WHERE SNO = 'S1' ( CITY := 'London' );"
AWAY = "DELETE S WHERE SNO = 'S1';"
ALL_SUPPLIERS = "RELATION { " + ", ".join(f"TUPLE {{ SNO 'S{n}' }}" for n in range(1, 9)) + " }"
ALL_PARTS = "RELATION { " + ", ".join(f"TUPLE {{ PNO 'P{n}' }}" for n in range(1, 6)) + " }"
MANY = (
    f"INSERT S {ALL_SUPPLIERS} JOIN RELATION {{ TUPLE {{ STATUS 20, CITY 'Paris' }} }}, "
    f"INSERT SP {ALL_SUPPLIERS} JOIN {ALL_PARTS} JOIN RELATION {{ TUPLE {{ QTY 100 }} }};"
)
LAST_AWAY = "DELETE SP WHERE SNO = 'S8';"
FIRST_PART_CHANGED = "UPDATE SP WHERE PNO = 'P1' ( QTY := 7 );"
FIRST_PART_MOVED = "UPDATE SP WHERE PNO = 'P1' ( PNO := 'P2' );"
NINTH = "INSERT S RELATION { TUPLE { SNO 'S9', STATUS 20, CITY 'Paris' } };"
LAST_PART_AWAY = "DELETE SP WHERE PNO = 'P5';"
NINTH_SHIPMENT = "INSERT SP RELATION { TUPLE { SNO 'S9', PNO 'P1', QTY 100 } };"
QUERY = "( EXTEND S ADD ( STATUS + 1 AS NEXT ) ) JOIN SP"


class Entry(NamedTuple):
    """A statement that a site holds, and what became of it there."""

    clock: int
    site: int
    seq: int
    text: str
    outcome: str = "done"


class State(NamedTuple):
    """What a site shows: the tuples of S by city, number and status, those of SP by part, quantity and number of the
    supplier, those of MOST, and its entries in stamp order."""

    suppliers: tuple = ()
    shipments: tuple = ()
    most: tuple = ()
    entries: tuple = ()

    def listing(self):
        lines = []
        for name, tuples in self.relvars():
            lines += [f"relvar {name} {len(tuples)}", *tuples]
        for it in self.entries:
            if it.outcome != "done":
                lines.append(f"refused {it.clock}.{it.site} {it.outcome.removeprefix('refused ')}")
        return "".join(f"{it}\n" for it in [*lines, f"held {len(self.entries)}"])

    def relvars(self):
        shown = [f"TUPLE {{ CITY '{city}', SNO '{sno}', STATUS {status} }}" for city, sno, status in self.suppliers]
        yield "S", shown
        yield "SP", [f"TUPLE {{ PNO '{pno}', QTY {qty}, SNO '{sno}' }}" for pno, qty, sno in self.shipments]
        yield "LS", [it for it, (city, _, _) in zip(shown, self.suppliers) if city == "London"]
        yield "MOST", [f"TUPLE {{ N {n} }}" for n in self.most]

    def log(self):
        return "".join(f"{it.clock}.{it.site} {it.seq} {it.outcome}: {it.text}\n" for it in self.entries)

    def outcomes(self):
        return "".join(f"{it.clock}.{it.site} {it.outcome}\n" for it in self.entries)

    def vector(self):
        return {it.site for it in self.entries}

    def beside(self, other):
        """The entries that the other state lacks."""
        held = {(it.site, it.seq) for it in other.entries}
        return [it for it in self.entries if (it.site, it.seq) not in held]


    def asked(self):
        """What the query gives."""
        found = []
        for city, sno, status in self.suppliers:
            found += [(city, status + 1, pno, qty, sno, status) for pno, qty, other in self.shipments if other == sno]
        shown = [
            f"TUPLE {{ CITY '{city}', NEXT {next}, PNO '{pno}', QTY {qty}, SNO '{sno}', STATUS {status} }}"
            for city, next, pno, qty, sno, status in sorted(found)
        ]
        return relation("CITY CHAR, NEXT INTEGER, PNO CHAR, QTY INTEGER, SNO CHAR, STATUS INTEGER", shown)

    def table(self):
        """S as CSV."""
        return "CITY,SNO,STATUS\n" + "".join(f"{city},{sno},{status}\n" for city, sno, status in self.suppliers)

    def counted(self):
        """The version vector: no site's entries have a gap."""
        last = {it.site: max(other.seq for other in self.entries if other.site == it.site) for it in self.entries}
        return "vector" + "".join(f" {site}:{last[site]}" for site in sorted(last)) + "\n"

    def valued(self):
        """What LS has."""
        return relation("CITY CHAR, SNO CHAR, STATUS INTEGER", dict(self.relvars())["LS"])


def relation(heading, tuples):
    return f"RELATION {{ {heading} }} {{ {', '.join(tuples)} }}\n" if tuples else f"RELATION {{ {heading} }} {{ }}\n"


class Example(NamedTuple):
    """Two sites before they meet, the second one before it issues a statement and behind it, and both behind the
    meeting; and the lines by which the program comes to this, up to the statement, with their answers, where it can."""

    name: str
    first: State
    before: State
    second: State
    met: State
    lines: tuple = ()

    def issued(self):
        """The entry of the second site's statement."""
        [it] = self.second.beside(self.before)
        return it

    def begun(self):
        """What there is just after the first entry, for which nothing is refused yet."""
        return {
            LONDON: State((SUPPLIER,)),
            PARIS: State((("Paris", "S1", 20),)),
            MANY: State(SUPPLIERS, shipments(range(1, 6), range(1, 9))),
        }[self.met.entries[0].text]


SUPPLIER = ("London", "S1", 20)
SHIPPED = ("P1", 200, "S1")
SUPPLIERS = tuple(("Paris", f"S{n}", 20) for n in range(1, 9))


def shipments(parts, suppliers, changed=()):
    """All these suppliers' shipments of these parts, by part, quantity and supplier."""
    return tuple((f"P{part}", 7 if part in changed else 100, f"S{n}") for part in parts for n in suppliers)


def replayed(name, late, outcome, suppliers=(SUPPLIER,), shipped=(SHIPPED,)):
    """A late statement that comes behind the supplier and before its shipment and the bound; and what is there when all
    have run."""
    supplied, found = Entry(1, 2, 1, LONDON), Entry(2, 1, 1, late, outcome)
    shipment, bound = Entry(2, 2, 2, SHIPMENT), Entry(3, 2, 3, BOUND)
    alone = tuple(it for it in shipped if it != SHIPPED)
    lines = (
        (f"2: {LONDON}", "1.2 done"),
        (".meet 1 2", "met 1 2 fresh 1 0"),
        (f"1: {late}", f"2.1 {outcome}"),
        (f"2: {SHIPMENT}", "2.2 done"),
    )
    return Example(
        f"replay counts: a late statement {name}",
        State(suppliers, alone, (), (supplied, found)),
        State((SUPPLIER,), (SHIPPED,), (), (supplied, shipment)),
        State((SUPPLIER,), (SHIPPED,), (5,), (supplied, shipment, bound)),
        State(suppliers, shipped, (5,), (supplied, found, shipment, bound)),
        # (a site does not issue what it cannot read)
        () if outcome == "refused unread" else lines,
    )


def many(name, late, own, statement, first, before, refused, met, outcome):
    """Many tuples at two sites, of which each changes some; the second's statement is refused there."""
    filled, found, mine = Entry(1, 1, 1, MANY), Entry(2, 1, 2, late), Entry(2, 2, 1, own)
    lines = (
        (f"1: {MANY}", "1.1 done"),
        (".meet 1 2", "met 1 2 fresh 0 1"),
        (f"1: {late}", "2.1 done"),
        (f"2: {own}", "2.2 done"),
    )
    return Example(
        f"many tuples: {name}",
        State(*first, entries=(filled, found)),
        State(*before, entries=(filled, mine)),
        State(*before, entries=(filled, mine, Entry(3, 2, 2, statement, refused))),
        State(*met, entries=(filled, found, mine, Entry(3, 2, 2, statement, outcome))),
        lines,
    )


EXAMPLES = [
    Example(
        "refused here, done after the meeting",
        State((SUPPLIER,), entries=(Entry(1, 1, 1, LONDON),)),
        State(),
        State(entries=(Entry(1, 2, 1, SHIPMENT, "refused breaks constraint C1"),)),
        State((SUPPLIER,), (SHIPPED,), (), (Entry(1, 1, 1, LONDON), Entry(1, 2, 1, SHIPMENT))),
        ((f"1: {LONDON}", "1.1 done"),),
    ),
    Example(
        "delete meets a late reference",
        State(entries=(Entry(1, 1, 1, LONDON), Entry(2, 1, 2, AWAY))),
        State((SUPPLIER,), entries=(Entry(1, 1, 1, LONDON),)),
        State((SUPPLIER,), (SHIPPED,), (), (Entry(1, 1, 1, LONDON), Entry(2, 2, 1, SHIPMENT))),
        State(
            entries=(
                Entry(1, 1, 1, LONDON),
                Entry(2, 1, 2, AWAY),
                Entry(2, 2, 1, SHIPMENT, "refused breaks constraint C1"),
            )
        ),
        ((f"1: {LONDON}", "1.1 done"), (".meet 1 2", "met 1 2 fresh 0 1"), (f"1: {AWAY}", "2.1 done")),
    ),
    Example(
        "virtual relvar inside a constraint",
        State((SUPPLIER,), entries=(Entry(1, 1, 1, PARIS), Entry(2, 1, 2, TO_LONDON))),
        State((("Paris", "S1", 20),), entries=(Entry(1, 1, 1, PARIS),)),
        State((("Paris", "S1", 20),), (), (0,), (Entry(1, 1, 1, PARIS), Entry(2, 2, 1, NO_BOUND))),
        State(
            (SUPPLIER,),
            entries=(
                Entry(1, 1, 1, PARIS),
                Entry(2, 1, 2, TO_LONDON),
                Entry(2, 2, 1, NO_BOUND, "refused breaks constraint C3"),
            ),
        ),
        ((f"1: {PARIS}", "1.1 done"), (".meet 1 2", "met 1 2 fresh 0 1"), (f"1: {TO_LONDON}", "2.1 done")),
    ),
    replayed("of MOST", "DELETE MOST;", "done"),
    replayed("of SP", SECOND_SHIPMENT, "done", shipped=(SHIPPED, ("P2", 100, "S1"))),
    replayed("of S", "UPDATE S ( STATUS := 30 );", "done", suppliers=(("London", "S1", 30),)),
    replayed("that is unread", "INSERT Q X;", "refused unread"),
    many(
        "a key is broken",
        LAST_AWAY,
        FIRST_PART_CHANGED,
        FIRST_PART_MOVED,
        (SUPPLIERS, shipments(range(1, 6), range(1, 8))),
        (SUPPLIERS, shipments(range(1, 6), range(1, 9), [1])),
        "refused breaks key SP",
        (SUPPLIERS, shipments(range(1, 6), range(1, 8), [1])),
        "refused breaks key SP",
    ),
    many(
        "refused here, done after the meeting",
        NINTH,
        LAST_PART_AWAY,
        NINTH_SHIPMENT,
        ((*SUPPLIERS, ("Paris", "S9", 20)), shipments(range(1, 6), range(1, 9))),
        (SUPPLIERS, shipments(range(1, 5), range(1, 9))),
        "refused breaks constraint C1",
        ((*SUPPLIERS, ("Paris", "S9", 20)), tuple(sorted((*shipments(range(1, 5), range(1, 9)), ("P1", 100, "S9"))))),
        "done",
    ),
]


# ---- bytes, by docs/FORMATS.md


def frame(entry):
    """The frame of an entry, of dialect 2, in version 2."""
    return b"E" + struct.pack(">HIQBH", entry.site, entry.seq, entry.clock, 2, len(entry.text)) + entry.text.encode()


def frames(entries):
    return b"".join(map(frame, entries))


def greeting_length(state):
    return 13 + len(SCRIPT) + 6 * len(state.vector())


def journal(site, entries):
    return b"JTDB" + struct.pack(">BHI", 2, site, len(SCRIPT)) + SCRIPT.encode() + frames(entries)

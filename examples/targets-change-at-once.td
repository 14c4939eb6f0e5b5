/* All targets of a statement change at once; keys and constraints are looked at once, at the end. */
VAR S BASE RELATION { SNO CHAR, STATUS INTEGER, CITY CHAR } KEY { SNO };
VAR SP BASE RELATION { SNO CHAR, PNO CHAR, QTY INTEGER } KEY { SNO, PNO };
VAR LS VIRTUAL ( S WHERE CITY = 'London' );
CONSTRAINT C1 IS_EMPTY ( SP NOT MATCHING S );
CONSTRAINT C2 IS_EMPTY ( LS WHERE STATUS < 10 );
VAR MOST BASE RELATION { N INTEGER } KEY { };
CONSTRAINT C3 IS_EMPTY ( MOST WHERE N < COUNT ( LS ) );
.begin
1: INSERT SP RELATION { TUPLE { SNO 'S1', PNO 'P1', QTY 200 } }, INSERT S RELATION { TUPLE { SNO 'S1', STATUS 20, CITY 'London' } }; /* both relvars at once */
1? S
1? SP
1: DELETE S;
1: DELETE S, DELETE SP;
1? S
1? SP

1: INSERT S RELATION { TUPLE { SNO 'S1', STATUS 20, CITY 'Paris' } }, MOST := EXTEND TABLE_DEE ADD ( COUNT ( S ) AS N ), INSERT S RELATION { TUPLE { SNO 'S2', STATUS 10, CITY 'Paris' } }, DELETE S WHERE SNO = 'S2'; /* repeated targets: each sees what the ones before gave it, and no other target */
1? S
1? MOST
1? S
1? MOST

1: MOST := RELATION { TUPLE { N 5 }, TUPLE { N 6 } }; /* a key of no attributes */

1: UPDATE S WHERE SNO = 'S1' ( CITY := 'London' ); /* a constraint that reads another relvar through a virtual one */
1: DELETE MOST;
1? MOST
1: UPDATE S WHERE SNO = 'S1' ( CITY := 'London' );
1? S
1: MOST := RELATION { TUPLE { N 0 } };
1? LS
1? MOST

1: INSERT S RELATION { TUPLE { SNO 'S1', STATUS 5, CITY 'London' } }; /* of several tests that are false the first in the order of the script is told */
1: UPDATE S ( STATUS := 5 );
1: MOST := RELATION { TUPLE { N 5 }, TUPLE { N 6 } }, UPDATE S ( STATUS := 5 ), INSERT SP RELATION { TUPLE { SNO 'S9', PNO 'P1', QTY 1 } };

1: INSERT S RELATION { TUPLE { SNO 'S2', STATUS 30, CITY 'London' } }, DELETE S WHERE COUNT ( LS ) = 2 AND SNO = 'S1', MOST := EXTEND TABLE_DEE ADD ( COUNT ( LS ) AS N ); /* a source sees a virtual relvar over its own target with what that was given, and over another target as it was */
1? S
1? MOST

1: INSERT S; /* nothing is read, or nothing changes */
1: INSERT LS S;
1: INSERT Q X;
1: S := S;
1: INSERT S LS;
1: DELETE S WHERE SNO = 'S1';
1? S
.quit

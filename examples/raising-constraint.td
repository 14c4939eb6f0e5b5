/* A constraint that divides: where it raises the error is told, and where it is false the constraint. */
VAR S BASE RELATION { SNO CHAR, STATUS INTEGER, CITY CHAR } KEY { SNO };
CONSTRAINT C4 IS_EMPTY ( S WHERE 100 / STATUS = 1 );
.begin
1: INSERT S RELATION { TUPLE { SNO 'S1', STATUS 0, CITY 'London' } };
1: INSERT S RELATION { TUPLE { SNO 'S1', STATUS 100, CITY 'London' } };
.listing 1
.quit

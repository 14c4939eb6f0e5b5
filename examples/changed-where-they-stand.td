/* Relvars that a DELETE or an UPDATE changes where they stand, and what a refused one leaves. */
VAR W BASE INIT ( RELATION { TUPLE { A 1, B 2 }, TUPLE { A 1, B 3 }, TUPLE { A 2, B 3 }, TUPLE { A 3, B 4 } } ) KEY { A, B };
VAR K BASE INIT ( RELATION { TUPLE { A 1, B 10 }, TUPLE { A 2, B 20 } } ) KEY { A } KEY { B };
CONSTRAINT PARTS IS_EMPTY ( W WHERE 12 / B > 6 );
CONSTRAINT SOME COUNT ( W ) > 1;
.begin
1: UPDATE W WHERE A = 1 ( B := B + 1 ); /* one becomes what another one was */
1? W
1: UPDATE W WHERE A = 2 ( A := 1 ); /* or what is there */
1? W
1: UPDATE W WHERE A = 3 ( B := B );
1: DELETE W WHERE B = 7;
1: DELETE W WHERE A = 1; /* refused, and all is as it was */
1? W
1: UPDATE W WHERE B = 4 ( B := 1 );
1: UPDATE W WHERE B = 4 ( B := 0 );
1? W
1: UPDATE W WHERE A = 1 ( A := 3 );
1? W
1: UPDATE W WHERE A / ( B - 3 ) = 3 ( B := 9 );
1: UPDATE W WHERE NOT ( B = 3 ) ( B := 9223372036854775807 + B );
1: UPDATE W WHERE B / ( B - 3 ) > 0 ( B := 9223372036854775807 + B ); /* every condition before each item */
1: DELETE W WHERE B / ( B - 3 ) > 0;
1: UPDATE K WHERE A = 1 ( B := 20 );
1: UPDATE K WHERE A <= 2 ( A := 3 - A, B := B + 1 ); /* two keys exchanged */
1: UPDATE K WHERE A < 9 ( A := 5 );
1? K
1: DELETE K WHERE A = 1, DELETE W WHERE A = 9;
1: DELETE K WHERE B = MAX ( K, B ); /* a condition over the target itself */
1: DELETE K WHERE TRUE;
1: UPDATE K WHERE A = 1 ( B := A / 0 ); /* over no tuple nothing is raised */
1? K
1? W
.quit

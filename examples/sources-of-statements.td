/* What sources make of their targets, and what they raise. */
TYPE ODD POSSREP { N INTEGER CONSTRAINT N - N / 2 * 2 = 1 };
VAR R BASE INIT ( RELATION { TUPLE { A 1, B 5 }, TUPLE { A 2, B 0 }, TUPLE { A 3, B 2 } } ) KEY { A } KEY { B };
VAR P BASE INIT ( R { B } JOIN RELATION { TUPLE { A 1 } } ) KEY { A, B };
VAR E BASE RELATION { A INTEGER } KEY { };
.begin
1? P

1: INSERT R RELATION { TUPLE { A 4, B 5 } }; /* the second of two keys */

1: UPDATE R WHERE 10 / B = 2 ( B := 9 ); /* every condition is evaluated, and then every item for the tuples that are selected */
1: UPDATE R ( B := 10 / B );
1: UPDATE R WHERE 10 / B > 0 ( A := 9223372036854775807 + A );
1: UPDATE R ( B := 10 / B, A := 9223372036854775807 + A );
1: UPDATE R WHERE B <> 0 ( B := 10 / B );
1? R

1: UPDATE R ( A := B, B := A ); /* each item sees the old tuple */
1? R

1: UPDATE P WHERE B < 5 ( B := B / 5 + 1 ); /* two tuples become one, with one that is not selected too */
1? P
1: UPDATE P WHERE B = 1 ( B := 5 );
1? P

1: INSERT R RELATION { TUPLE { A 4, B 1 } }, DELETE P WHERE 1 / ( B - 5 ) = 1, E := RELATION { TUPLE { A 9223372036854775807 + 1 } }; /* the first source that raises is told, before each test */
1: E := RELATION { TUPLE { A THE_N ( ODD ( 2 ) ) } };
1: E := RELATION { TUPLE FROM ( R { A } ) };
1: E := RELATION { TUPLE { A MAX ( E, A ) } };

1: DELETE E WHERE 1 / 0 = A; /* over no tuple nothing is raised */
1: UPDATE E ( A := 1 / 0 );
1: INSERT E RELATION { TUPLE { A 1 }, TUPLE { A 1 } };
1? E
1: INSERT E RELATION { TUPLE { A 2 } };
1: INSERT E RELATION { TUPLE { A 1 } };
1: E := RELATION { TUPLE { A 2 } };
1? E
1? R
1? P
.quit

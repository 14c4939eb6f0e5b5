/* COUNT of joins and of extensions, of which no tuple need be made. */
VAR R BASE INIT ( RELATION { TUPLE { A 1, B 5 }, TUPLE { A 2, B 0 }, TUPLE { A 3, B 2 } } ) KEY { A };
VAR Q BASE INIT ( RELATION { TUPLE { B 5, C 'x' }, TUPLE { B 5, C 'y' }, TUPLE { B 0, C 'x' }, TUPLE { B 7, C 'z' } } ) KEY { B, C };
VAR L BASE INIT ( RELATION { TUPLE { A 1, D 10 }, TUPLE { A 1, D 11 }, TUPLE { A 2, D 10 }, TUPLE { A 4, D 10 } } ) KEY { D, A };
.begin
1? COUNT ( R JOIN Q ) /* by the first attribute of the key of Q */
1? COUNT ( Q JOIN R )
1? COUNT ( R JOIN L ) /* by the key of R */
1? COUNT ( L JOIN R )
1? COUNT ( R { B } JOIN Q { B } ) /* by no key */
1? COUNT ( Q { B } JOIN R { B } )
1? COUNT ( R JOIN R )
1? COUNT ( R JOIN Q { C } ) /* each with each */
1? COUNT ( R JOIN ( R WHERE FALSE ) )
1? COUNT ( R JOIN TABLE_DEE )
1? COUNT ( R JOIN TABLE_DUM )
1? COUNT ( ( R JOIN Q ) JOIN L )
1? COUNT ( R JOIN ( EXTEND Q ADD ( 1 / B AS X ) ) )
1? COUNT ( ( EXTEND R ADD ( 1 / B AS X ) ) JOIN Q )
1? COUNT ( EXTEND R ADD ( A + B AS S ) )
1? COUNT ( EXTEND R ADD ( 1 / B AS S ) ) /* raises, though the values are not asked for */
1? COUNT ( EXTEND R ADD ( 1 / B AS S, 9223372036854775807 + A AS T ) ) /* the least error of all tuples and terms */
1? COUNT ( EXTEND ( R WHERE FALSE ) ADD ( 1 / 0 AS S ) )
1? COUNT ( EXTEND ( R JOIN Q ) ADD ( A AS X ) )
1? COUNT ( EXTEND R : { A := 0 } ) /* a value that is replaced may leave fewer tuples */
1? COUNT ( EXTEND Q : { B := 1 } )
1? COUNT ( EXTEND Q : { C := 'x' } )
1? COUNT ( EXTEND R : { A := 0, B := 0 } )
1? EXTEND R ADD ( COUNT ( Q JOIN RELATION { TUPLE { B B } } ) AS N )
1? EXTEND R ADD ( COUNT ( EXTEND Q ADD ( A AS X ) ) AS N )
1? EXTEND R ADD ( COUNT ( Q JOIN L ) AS N )
1: INSERT Q RELATION { TUPLE { B 2, C 'w' } };
1? COUNT ( R JOIN Q )
1: DELETE Q WHERE B = 5;
1? COUNT ( R JOIN Q )
1? COUNT ( R JOIN Q ) @ 1.1

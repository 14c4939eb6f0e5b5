/* What queries answer, and where they raise. */
TYPE ODD POSSREP { N INTEGER CONSTRAINT N - N / 2 * 2 = 1 };
TYPE SHARE POSSREP { N INTEGER CONSTRAINT 10 / N > 1 };
VAR R BASE INIT ( RELATION { TUPLE { A 1, B 5 }, TUPLE { A 2, B 0 }, TUPLE { A 3, B 2 } } ) KEY { A };
VAR E BASE RELATION { A INTEGER, B INTEGER } KEY { A };
TYPE T POSSREP { A INTEGER CONSTRAINT 3 < 10 / A };
.begin
1? THE_N ( ODD ( 3 ) ) + 1
1? A FROM ( TUPLE FROM ( R WHERE B = 0 ) )
1? WITH ( N := 2, N := N * N ) : N - 1
1? THE_N ( ODD ( 3 ) ) + THE_N ( ODD ( 5 ) )
1? R { A } < R { A }
1? R { A } <= R { A }
1? ( R WHERE A > 1 ) { A } < R { A }
1? TUPLE { A 1, B 5 } IN R
1? TUPLE { A 1, B 6 } IN R
1? NOT ( 1 > 2 ) XOR 2 <> 2
1? IS_EMPTY ( E )
1? COUNT ( R JOIN E )
1? EXTEND R : { B := B + 1 } WHERE A = 1
1? R RENAME ( A AS B, B AS A ) WHERE B = 1
1? SUM ( R, A )
1? SUMMARIZE R ADD ( SUM ( B ) AS S )
1? R { B } WHERE B > 1

1? 9223372036854775806 + 1 /* integers have 64 bits, and a division cuts off towards zero */
1? 9223372036854775807 + 1
1? 2 - 5
1? -9223372036854775807 - 2
1? 4294967296 * 4294967296
1? 7 / 2
1? -7 / 2
1? 7 / -2
1? 1 / 0
1? 1 < 2
1? 1 > 2
1? 2 <= 2
1? 1 >= 2
1? 2 = 2
1? 2 <> 2

1? FALSE AND 1 / 0 = 1 /* what is not needed raises nothing */
1? TRUE AND 1 / 0 = 1
1? TRUE OR 1 / 0 = 1
1? FALSE OR 1 / 0 = 1
1? TRUE XOR 1 / 0 = 1
1? 1 / 0 + 4294967296 * 4294967296

1? RELATION { TUPLE { A 5 }, TUPLE { A 1 }, TUPLE { A 2 }, TUPLE { A 1 } } WHERE 3 < 10 / A /* a condition sees its tuple */
1? RELATION { TUPLE { A 1 }, TUPLE { A 0 } } WHERE 3 < 10 / A
1? RELATION { A INTEGER } { } WHERE 3 < 10 / A
1? WITH ( A := 2, A := A * A ) : A - 1

1? T ( 2 ) /* the CONSTRAINT of a possrep is false, or raises */
1? T ( 5 )
1? T ( 0 )

1? TUPLE FROM RELATION { TUPLE { A 4 } } /* one tuple, none, and two */
1? TUPLE FROM RELATION { A INTEGER } { }
1? TUPLE FROM RELATION { TUPLE { A 1 }, TUPLE { A 2 } }

1? COUNT ( R WRAP ( { B } AS W ) ) /* wrapped tuples are unwrapped again */
1? ( R WRAP ( { B } AS W ) ) UNWRAP ( W ) = R

1? 7 / 2 /* a division, and a value of a type of one component */
1? T ( 2 )
.quit

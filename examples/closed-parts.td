/* Parts of terms that name nothing around them: over no tuples they raise nothing, and of several errors the same stands. */
TYPE SMALL POSSREP { N INTEGER CONSTRAINT COUNT ( RELATION { TUPLE { X 1 }, TUPLE { X 2 } } WHERE X < N ) < 2 };
VAR R BASE INIT ( RELATION { TUPLE { A 1, B 5 }, TUPLE { A 2, B 0 }, TUPLE { A 3, B 2 } } ) KEY { A };
VAR E BASE RELATION { A INTEGER, B INTEGER } KEY { A };
.begin
1? R WHERE B = MAX ( R, B )
1? R WHERE MAX ( R, B ) = B
1? E WHERE A = MAX ( E, A ) /* over no tuples nothing is asked */
1? R WHERE A = MAX ( E, A )
1? R WHERE A > 5 AND B = MAX ( E, A ) /* and behind AND, OR and IF only where they ask */
1? R WHERE A > 2 AND B = MAX ( E, A )
1? R WHERE A < 5 OR B = MAX ( E, A )
1? R WHERE IF A < 5 THEN TRUE ELSE B = MAX ( E, A ) END IF
1? R WHERE IF A < 3 THEN TRUE ELSE B = MAX ( E, A ) END IF
1? R WHERE 10 / B = MAX ( E, A ) /* at each tuple the first error stands, over tuples the least */
1? R WHERE MAX ( E, A ) = 10 / B
1? R WHERE 10 / B = 9223372036854775807 + MAX ( R, A )
1? EXTEND R ADD ( MAX ( R, B ) - B AS D )
1? EXTEND E ADD ( MAX ( E, B ) AS D )
1? SUM ( R, COUNT ( R ) )
1? SUM ( E, MAX ( E, A ) )
1? SUM ( R, MAX ( E, A ) )
1? SUMMARIZE R PER ( R { A } ) ADD ( SUM ( B + COUNT ( R ) ) AS T )
1? R WHERE COUNT ( R WHERE B > MIN ( R, B ) ) = A /* one within another */
1? R WHERE COUNT ( R WHERE A = MAX ( E, A ) ) = A
1? R WHERE COUNT ( E WHERE A = MAX ( E, A ) ) = A - 2
1? R WHERE WITH ( B := MAX ( R, B ) ) : A < B /* names of WITH hide attributes, and attributes hide them */
1? WITH ( A := 3 ) : R WHERE A = MAX ( R WHERE A < 3, A )
1? WITH ( N := 2 ) : R WHERE A = MAX ( R WHERE A <= N, A )
1? ( R RENAME ( A AS X ) ) WHERE X = COUNT ( R WHERE A < X ) + 1 /* what names the tuple is asked at each */
1? R WHERE B = SUM ( ( R GROUP ( { B } AS G ) ) UNGROUP ( G ), B ) - 2
1? R WHERE COUNT ( ( R GROUP ( { B } AS G ) ) UNGROUP ( G ) WHERE B > 0 ) = A
1? SMALL ( 2 )
1? SMALL ( 3 )

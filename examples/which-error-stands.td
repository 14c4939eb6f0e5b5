/* Each of the five errors, and which one stands where there are several. */
TYPE ODD POSSREP { N INTEGER CONSTRAINT N - N / 2 * 2 = 1 };
TYPE SHARE POSSREP { N INTEGER CONSTRAINT 10 / N > 1 };
VAR R BASE INIT ( RELATION { TUPLE { A 1, B 5 }, TUPLE { A 2, B 0 }, TUPLE { A 3, B 2 } } ) KEY { A };
VAR E BASE RELATION { A INTEGER, B INTEGER } KEY { A };
.begin
1? 9223372036854775807 + 1
1? 1 / 0
1? MAX ( E, A )
1? ODD ( 2 )
1? SHARE ( 0 )
1? TUPLE FROM R

1? 1 / 0 + 9223372036854775807 * 2 /* operands left to right: the first error stands */
1? 9223372036854775807 * 2 + 1 / 0

1? EXTEND R ADD ( 10 / B AS C, 9223372036854775807 + A AS D ) /* over tuples and items the least stands */
1? EXTEND R ADD ( ODD ( A ) AS C, 10 / B AS D )
1? R WHERE ODD ( A ) = ODD ( 1 )
1? E WHERE 1 / 0 = A

1? R WHERE 10 / B = 9223372036854775805 + A /* tuple against tuple, at one place and at two */
1? SUM ( R, 10 / B )

1? SUM ( R, 9223372036854775800 + A ) /* a summary's own error is asked for where its terms have none */
1? SUM ( R, 9223372036854775807 / ( B - 5 ) * 4 )
1? MAX ( E, 10 / B )
1? SUMMARIZE E PER ( R { A } ) ADD ( MAX ( B ) AS M, SUM ( 1 / 0 ) AS T )
1? SUMMARIZE R PER ( R { A } ) ADD ( MAX ( 10 / B ) AS M, SUM ( 9223372036854775805 + B ) AS T )

1? SUMMARIZE R WHERE ODD ( 2 ) = ODD ( 1 ) PER ( R WHERE 1 / 0 = A ) ADD ( SUM ( 9223372036854775807 + A ) AS T ) /* the relation before the terms, the first operand before PER */
1? EXTEND ( R WHERE 10 / B = 2 ) ADD ( 9223372036854775807 + A AS C )

1? IF 1 = 1 THEN 2 ELSE 1 / 0 END IF /* what is not needed is not evaluated */
1? TRUE OR 1 / 0 = 1
1? 1 / 0 = 1 OR TRUE
1? WITH ( X := 1 / 0 ) : 2

1? AND ( R, 10 / B > 100 ) /* AND and OR over tuples evaluate every one */

1? TUPLE { B 1 / 0, A ODD ( 2 ) } /* selectors, components, tuples and relations in written order */
1? RELATION { TUPLE { A ODD ( 2 ) }, TUPLE { A ODD ( 1 / 0 ) } }
.quit

/* Conditions over attributes that stand first, in the middle and last by name, joined by AND in each order, with an error in each place; summaries per a relation's own parts; joins whose common attributes are first, last, all and none. */
TYPE QTY POSSREP { N INTEGER };
VAR R BASE INIT ( RELATION { TUPLE { A 1, M 5, Z 9 }, TUPLE { A 2, M 0, Z 7 }, TUPLE { A 3, M 2, Z 8 } } ) KEY { A };
VAR E BASE RELATION { A INTEGER, M INTEGER, Z INTEGER } KEY { A };
VAR T BASE INIT ( RELATION { TUPLE { A 2, N 'x' }, TUPLE { A 3, N 'y' } } ) KEY { A };
VAR W BASE INIT ( RELATION { TUPLE { G 'a', K 1, V 2 }, TUPLE { G 'a', K 2, V 4 }, TUPLE { G 'b', K 3, V 0 }, TUPLE { G 'c', K 4, V 5 } } ) KEY { K };
.begin
1? R WHERE A = 2 /* attributes that stand first, in the middle and last by name */
1? R WHERE M < 5
1? R WHERE Z >= 8
1? R WHERE 8 <= Z
1? R WHERE A < M
1? R WHERE Z > M AND M > A
1? T WHERE N = 'y'
1? T WHERE 'x' < N AND A > 2
1? R WHERE M <> 0 AND 10 / M > 2 /* AND asks for its second operand only where the first is true */
1? R WHERE 10 / M > 2 AND M <> 0
1? R WHERE A > 1 AND M <> 0 AND 10 / M > 2
1? R WHERE A > 1 AND 10 / M > 2 AND M <> 0
1? R WHERE 10 / M > 2 AND A > 1 AND M <> 0
1? R WHERE A > 1 AND ( M <> 0 AND Z = 8 )
1? R WHERE ( A > 1 AND M <> 0 ) AND Z = 8
1? R WHERE Z = 8 AND ( 10 / M > 2 AND A > 1 )
1? R WHERE A = 2 AND 10 / M = 1
1? R WHERE A = 2 AND 9223372036854775807 + A > 0
1? R WHERE 10 / M > 4 AND 9223372036854775807 + A > 0 /* of the errors at several tuples the first in the table stands */
1? R WHERE 10 / M > 5 AND 9223372036854775807 + A > 0
1? R WHERE 9223372036854775807 + A > 0 AND 10 / M > 0
1? E WHERE 10 / M > 2 AND A = 1
1? R WHERE A = 1 OR M = 2
1? R WHERE NOT ( A = 1 ) AND Z > 7
1? R WHERE TRUE AND A = 3
1? R WHERE A = 3 AND FALSE
1? R WHERE 1 = 1 AND Z = 9
1? R WHERE COUNT ( ( ( R RENAME ( A AS B ) ) { B } ) WHERE B < A ) = A - 1 /* an inner tuple's attributes hide an outer one's */
1? R WHERE COUNT ( ( R RENAME ( A AS B ) ) WHERE B = A AND M = Z - 4 ) = 1
1? R WHERE COUNT ( R WHERE A = M ) = 0
1? R WHERE COUNT ( ( R { ALL BUT A } ) WHERE M <> 0 AND A / M = 0 ) = 2 /* where the outer one's has a part in it */
1? WITH ( N := 2 ) : R WHERE A = N
1? WITH ( A := 2 ) : R WHERE A = 3
1? WITH ( M := 7 ) : ( R { A, Z } ) WHERE Z = M
1? R WHERE WITH ( A := Z ) : A = 9
1? ( ( R GROUP ( { M, Z } AS G ) ) WHERE G = RELATION { TUPLE { M 0, Z 7 } } ) { A } /* values of every kind */
1? ( ( R GROUP ( { M, Z } AS G ) ) WHERE A > 2 AND G <= RELATION { TUPLE { M 0, Z 7 }, TUPLE { M 2, Z 8 } } ) { A }
1? ( ( R WRAP ( { M, Z } AS P ) ) WHERE P = TUPLE { M 2, Z 8 } ) { A }
1? ( ( EXTEND R ADD ( QTY ( M ) AS Q ) ) WHERE Q = QTY ( 5 ) ) { A }
1? ( ( EXTEND R ADD ( QTY ( M ) AS Q ) ) WHERE Q <> QTY ( 0 ) AND 10 / THE_N ( Q ) > 2 ) { A }
1? ( EXTEND R ADD ( A > 1 AS B ) ) WHERE B = FALSE
1? ( EXTEND R ADD ( A > 1 AS B ) ) WHERE B AND M = 0
1? SUMMARIZE W BY { G } ADD ( SUM ( V ) AS T ) /* summaries per a relation's own parts */
1? SUMMARIZE W PER ( W { G } ) ADD ( SUM ( V ) AS T )
1? SUMMARIZE W BY { G } ADD ( SUM ( V ) AS T, COUNT AS N, MAX ( K ) AS H, MIN ( K ) AS L )
1? SUMMARIZE W BY { G } ADD ( SUM ( 10 / V ) AS T )
1? SUMMARIZE W BY { G } ADD ( SUM ( V ) AS T, MAX ( 10 / V ) AS H )
1? SUMMARIZE W BY { G } ADD ( SUM ( 9223372036854775807 * V / V ) AS T )
1? SUMMARIZE W BY { G } ADD ( SUM ( 10 / V ) AS T, SUM ( 9223372036854775807 + K ) AS U )
1? SUMMARIZE ( W WHERE K > 9 ) BY { G } ADD ( SUM ( 10 / V ) AS T, MAX ( V ) AS H )
1? SUMMARIZE W BY { K, G } ADD ( SUM ( V ) AS T )
1? SUMMARIZE W BY { ALL BUT K, V } ADD ( COUNT AS N )
1? SUMMARIZE W BY { V } ADD ( SUM ( K + COUNT ( W ) ) AS T )
1? SUMMARIZE W BY { } ADD ( COUNT AS N )
1? SUMMARIZE ( W WHERE K > 9 ) BY { } ADD ( COUNT AS N )
1? SUMMARIZE ( W WHERE K > 9 ) ADD ( COUNT AS N )
1? R WHERE SUM ( ( SUMMARIZE ( W RENAME ( K AS A ) ) BY { G } ADD ( SUM ( V + M ) AS T ) ), T ) = M * 4 + 11 AND A < 3 /* terms that name a tuple around them */
1? R JOIN T /* common attributes that are first, last, all and none */
1? T JOIN R
1? R JOIN RELATION { TUPLE { B 1, Z 7 }, TUPLE { B 2, Z 9 }, TUPLE { B 3, Z 6 } }
1? R JOIN ( R WHERE A > 1 )
1? T JOIN RELATION { TUPLE { B TRUE }, TUPLE { B FALSE } }
1? RELATION { TUPLE { B TRUE } } JOIN T
1? RELATION { TUPLE { G 'a', P 1 }, TUPLE { G 'a', P 2 } } JOIN W
1? W JOIN RELATION { TUPLE { G 'b', K 3, P 1 }, TUPLE { G 'b', K 4, P 2 } }
1? T JOIN TABLE_DEE
1? T JOIN TABLE_DUM
1? R COMPOSE T
1? R MATCHING T
1? R NOT MATCHING T
1? T NOT MATCHING R

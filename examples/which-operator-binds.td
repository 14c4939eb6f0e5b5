/* Which operator binds more: where the other one did, the answer would be another value, or fault type. */
VAR R BASE INIT ( RELATION { TUPLE { A 1 }, TUPLE { A 2 } } ) KEY { A };
VAR Q BASE INIT ( RELATION { TUPLE { A 1 } } ) KEY { A };
VAR S BASE INIT ( RELATION { TUPLE { A 2, B 3 } } ) KEY { A };
VAR T BASE INIT ( RELATION { TUPLE { A 2, C TUPLE { B 4 } } } ) KEY { A };
.begin
1? TRUE XOR TRUE OR TRUE /* truth values */
1? TRUE OR TRUE XOR TRUE
1? TRUE OR TRUE AND FALSE
1? ( TRUE OR TRUE ) AND FALSE
1? FALSE AND TRUE XOR TRUE
1? NOT FALSE AND NOT TRUE
1? NOT 1 = 2
1? 1 = 1 AND TRUE

1? Q <= R JOIN Q /* comparisons */
1? TUPLE { A 1 } IN R JOIN Q
1? R = R WHERE A > 0

1? R WHERE A = 1 OR A = 2 /* a condition reaches as far as it can */
1? R WHERE A = 1 JOIN Q
1? R WHERE ( A = ( 1 JOIN Q ) )
1? ( R WHERE A = 1 ) JOIN Q
1? RELATION { TUPLE { G Q }, TUPLE { G R } } WHERE G = Q JOIN R
1? R WHERE TRUE JOIN Q
1? ( R WHERE TRUE ) JOIN Q
1? R WHERE TRUE WHERE TRUE
1? ( R WHERE TRUE ) WHERE TRUE

1? S JOIN R MINUS S /* JOIN and its like go on from the left */
1? R NOT MATCHING R UNION Q
1? S JOIN R WHERE B = 3
1? S JOIN R RENAME ( B AS C )
1? S GROUP { B } AS C JOIN R
1? T JOIN R UNWRAP C

1? 1 - 2 - 3 /* integers */
1? 1 + 2 * 3
1? 2 * 5 - 3
1? 6 / 2 * 3
1? - 1 * - 2
1? - 4611686018427387904 * 2
1? - ( 4611686018427387904 * 2 )

1? A FROM TUPLE { A 6 } / 2 /* what stands in front binds less than braces, and more than what stands between */
1? A FROM TUPLE { A 1, B 2 } { A }
1? - N FROM TUPLE FROM RELATION { TUPLE { N 5 } }
1? TCLOSE P FROM TUPLE FROM RELATION { TUPLE { P RELATION { TUPLE { X 1, Y 2 }, TUPLE { X 2, Y 3 } } } }
1? TCLOSE RELATION { TUPLE { X 1, Y 2, Z 9 } } { X, Y }
1? ( TCLOSE RELATION { TUPLE { X 1, Y 2, Z 9 } } ) { X, Y }
1? S { A, B } { A } JOIN R

1? R RENAME ( A AS B ) /* two ways to write one thing */
1? R RENAME { A AS B }
1? R SEMIMINUS Q
1? R NOT MATCHING Q
1? R SEMIJOIN Q
1? R MATCHING Q
1? S WRAP { B } AS C
1? S WRAP ( { B } AS C )

1? EXTEND R WHERE A = 1 ADD ( 1 AS B ) /* EXTEND and SUMMARIZE take what stands before ADD */
1? SUMMARIZE S PER R ADD ( COUNT AS N )
.quit

/* The rules of typing, each by queries that keep it and near misses that break it alone. */
TYPE POINT POSSREP PLACE { X INTEGER, NOTE CHAR };
TYPE LABEL POSSREP { Y INTEGER, NOTE CHAR };
TYPE BAG POSSREP { CONTENTS RELATION { A INTEGER } };
VAR S BASE INIT ( RELATION { TUPLE { SNO 'S1', CITY 'Paris', STATUS 20 } } ) KEY { SNO };
VAR P BASE RELATION { PNO CHAR, CITY CHAR, WEIGHT INTEGER } KEY { PNO };
VAR N BASE INIT ( RELATION { TUPLE { A 1 } } ) KEY { A };
VAR A BASE RELATION { B CHAR } KEY { B };
VAR L BASE RELATION { X INTEGER, Y INTEGER } KEY { X, Y };
VAR W BASE INIT ( RELATION { TUPLE { A 1, B TRUE } } ) KEY { A };
VAR G BASE RELATION { K CHAR, Q RELATION { K INTEGER }, R RELATION { A INTEGER } } KEY { K };
VAR H BASE RELATION { K CHAR, T TUPLE { C INTEGER }, V TUPLE { K INTEGER } } KEY { K };
.begin
1? S /* names */
1? Z
1? A
1? WITH ( A := 1 ) : A + 1 /* a name of WITH hides a relvar, and a later one an earlier one */
1? WITH ( C := 1 ) : A + 1
1? WITH 'x' AS C, 1 AS C : C + 1
1? WITH 1 AS C, 'x' AS C : C + 1
1? WITH 1 AS C, C + 1 AS D : D /* each sees those before it */
1? WITH C + 1 AS D, 1 AS C : D
1? N WHERE A = 1 /* an attribute hides what is outside of its tuple, which is visible otherwise */
1? A WHERE COUNT ( A ) = 1
1? N WHERE COUNT ( A ) = 1
1? WITH 'x' AS A : N WHERE A = 1
1? WITH 1 AS A : N WHERE A = 'x'
1? WITH 'x' AS C : N WHERE C = 'x'
1? N WHERE COUNT ( S WHERE STATUS = A ) = 1
1? N WHERE COUNT ( S WHERE STATUS = D ) = 1

1? RELATION { TUPLE { A 1, C 2 } } WHERE ( WITH ( A := 'x', B := 'y', A := TRUE ) : A AND B = 'y' AND C = 2 ) /* neighbours of these */
1? RELATION { TUPLE { A 1, C 2 } } WHERE ( WITH ( A := 'x', B := 'y', A := TRUE ) : A AND B = 'y' AND D = 2 )

1? 1 + 2 - 3 * 4 / 5 /* operators */
1? 1 + 'x'
1? 'x' - 1
1? 1 * TRUE
1? N / 1
1? - 1
1? - 'x'
1? 'a' || 'b'
1? 'a' || 1
1? 1 || 'a'
1? TRUE AND FALSE OR TRUE XOR NOT FALSE
1? TRUE AND 1
1? 1 OR TRUE
1? TRUE XOR 'x'
1? NOT 1
1? N = N
1? N = A
1? PLACE ( 1, 'x' ) <> PLACE ( 1, 'x' )
1? PLACE ( 1, 'x' ) <> LABEL ( 1, 'x' )
1? 1 < 2
1? 'a' >= 'b'
1? 'a' >= 1
1? N <= N
1? N <= A
1? TRUE < FALSE
1? TUPLE { A 1 } > TUPLE { A 1 }
1? TUPLE { A 1 } IN N
1? TUPLE { A 'x' } IN N
1? N IN N
1? TUPLE { A 1 } IN TUPLE { A 1 }

1? 'a' < 'b' /* neighbours of these */
1? 1 < 'b'
1? 'a' + 'b'
1? 1 = 'b'
1? 1 = 1
1? TRUE AND TRUE
1? TRUE OR TRUE
1? TRUE XOR TRUE
1? NOT TRUE
1? LABEL ( 1, 'x' ) <> LABEL ( 1, 'x' )
1? 'a' >= 'a'
1? A <= A

1? N JOIN W /* operators of relations */
1? A JOIN W
1? L JOIN RELATION { X INTEGER, Y CHAR } { }
1? G { R } JOIN RELATION { R RELATION { A CHAR } } { }
1? N JOIN 1
1? N COMPOSE W
1? A COMPOSE W
1? N MATCHING W
1? A MATCHING W
1? N NOT MATCHING W
1? A NOT MATCHING W
1? N UNION N
1? N UNION W
1? N INTERSECT W
1? N MINUS W
1? N UNION RELATION { A CHAR } { }
1? N INTERSECT RELATION { A CHAR } { }
1? N MINUS RELATION { A CHAR } { }
1? TCLOSE L
1? TCLOSE W
1? TCLOSE N
1? TUPLE FROM N
1? TUPLE FROM TUPLE { A 1 }
1? A FROM TUPLE { A 1 }
1? B FROM TUPLE { A 1 }
1? A FROM N
1? IS_EMPTY ( N )
1? IS_EMPTY ( 1 )
1? IS_EMPTY ( TUPLE { } )
1? COUNT ( N )
1? COUNT ( TUPLE { A 1 } )

1? L JOIN RELATION { Y INTEGER, Z INTEGER } { } /* neighbours of these */
1? L COMPOSE RELATION { Y INTEGER, Z INTEGER } { }
1? L UNION RELATION { Y INTEGER, Z INTEGER } { }
1? L <= RELATION { Y INTEGER, X INTEGER } { }
1? L JOIN RELATION { X INTEGER, Y INTEGER } { }
1? G { R } JOIN RELATION { R RELATION { A INTEGER } } { }
1? N INTERSECT N
1? N MINUS N
1? N UNION RELATION { A INTEGER } { }
1? N INTERSECT RELATION { A INTEGER } { }
1? N MINUS RELATION { A INTEGER } { }
1? TCLOSE RELATION { X INTEGER, Y INTEGER, Z INTEGER } { }

1? PLACE ( 1, 'x' ) /* selectors and components */
1? PLACE ( 1 )
1? PLACE ( 1, 'x', 2 )
1? PLACE ( 'x', 1 )
1? BAG ( N )
1? BAG ( A )
1? BAG ( RELATION { A CHAR } { } )
1? POINT ( 1, 'x' ) /* possreps, types and relvars have names of their own */
1? N ( 1, 'x' )
1? THE_X ( PLACE ( 1, 'x' ) )
1? THE_NOTE ( PLACE ( 1, 'x' ) )
1? THE_X ( LABEL ( 1, 'x' ) )
1? THE_X ( 1 )
1? THE_X ( )
1? THE_X ( PLACE ( 1, 'x' ), 1 )
1? THE_x ( PLACE ( 1, 'x' ) )
1? the_X ( PLACE ( 1, 'x' ) )

1? RELATION { TUPLE { A PLACE ( 1, 'x' ) } } /* neighbours of these */
1? RELATION { TUPLE { A BAG ( N ) } }
1? THE_Y ( LABEL ( 1, 'x' ) )

1? TUPLE { B 'x', A 1 } /* tuples, relations and choices */
1? TUPLE { A 1, A 2 }
1? RELATION { TUPLE { A 1 }, TUPLE { A 2 } }
1? RELATION { TUPLE { A 1 }, TUPLE { A 'x' } }
1? RELATION { 1 }
1? RELATION { N }
1? RELATION { A POINT, B TUPLE { } } { }
1? RELATION { A PLACE } { }
1? RELATION { A INTEGER, A CHAR } { }
1? RELATION { A INTEGER } { TUPLE { A 1 } }
1? RELATION { A INTEGER } { TUPLE { A 'x' } }
1? TABLE_DEE = TABLE_DUM
1? TABLE_DEE = N
1? IF TRUE THEN 1 ELSE 2 END IF
1? IF 1 THEN 1 ELSE 2 END IF
1? IF TRUE THEN 1 ELSE 'x' END IF
1? IF TRUE THEN N ELSE L END IF
1? IF TRUE THEN PLACE ( 1, 'x' ) ELSE LABEL ( 1, 'x' ) END IF

1? RELATION { B TUPLE { }, A LABEL } { } /* neighbours of these */
1? RELATION { A TUPLE { }, A LABEL } { }
1? RELATION { A TUPLE { }, B PLACE } { }
1? RELATION { A INTEGER, B CHAR } { }
1? TABLE_DEE = TABLE_DEE
1? IF TRUE THEN N ELSE N END IF
1? IF TRUE THEN PLACE ( 1, 'x' ) ELSE PLACE ( 2, 'x' ) END IF

1? S { CITY } /* parts and new names */
1? S { ALL BUT CITY }
1? TUPLE { A 1, B 2 } { A }
1? S { WEIGHT }
1? S { ALL BUT WEIGHT }
1? S { CITY, CITY }
1? S { ALL BUT CITY, CITY }
1? 1 { A }
1? N WHERE TRUE
1? N WHERE 1
1? TUPLE { A 1 } WHERE TRUE
1? L RENAME ( X AS Z )
1? L RENAME ( X AS Y, Y AS X )
1? L RENAME ( Z AS T )
1? L RENAME ( X AS Y )
1? L RENAME ( X AS Z, X AS T )
1? N RENAME ( A AS A )
1? TUPLE { A 1 } RENAME ( A AS B )
1? L GROUP { X } AS X
1? L GROUP { X } AS Y
1? L GROUP { Z } AS T
1? L GROUP { X, X } AS T
1? TUPLE { A 1 } GROUP { A } AS X
1? L WRAP { ALL BUT X } AS T
1? L WRAP { ALL BUT X } AS X
1? G { R } UNGROUP R
1? ( G { K, R } RENAME ( R AS A ) ) UNGROUP A
1? G UNGROUP Q
1? G UNGROUP K
1? H UNGROUP T
1? H { ALL BUT V } UNWRAP T
1? H UNWRAP V
1? H UNWRAP Z
1? G UNWRAP R
1? ( TUPLE FROM H ) UNWRAP T

1? S { STATUS, CITY } /* neighbours of these */
1? S { ALL BUT STATUS, CITY }
1? S { ALL BUT CITY, WEIGHT }
1? L RENAME ( X AS Z, Y AS T )
1? L GROUP { X } AS T
1? L WRAP { X } AS X
1? L WRAP { X } AS Y
1? G { ALL BUT K } UNGROUP Q
1? G UNGROUP R
1? H UNWRAP T
1? H { V } UNWRAP V

1? SUM ( S, STATUS + 1 ) /* aggregates and EXTEND */
1? SUM ( S, CITY )
1? SUM ( S, WEIGHT )
1? SUM ( 1, 1 )
1? SUM ( W, B )
1? MAX ( S, CITY )
1? MIN ( S, STATUS )
1? MIN ( W, B )
1? MAX ( W, B )
1? MAX ( W, PLACE ( 1, 'x' ) )
1? MAX ( W { B } )
1? AND ( W, B )
1? AND ( W, A )
1? OR ( W, A )
1? SUM ( N )
1? SUM ( L )
1? SUM ( A )
1? EXTEND N ADD ( A + 1 AS C )
1? EXTEND N ADD ( 1 AS A )
1? EXTEND N ADD ( 1 AS C, 2 AS C )
1? EXTEND N ADD ( 1 AS C, C AS D )
1? EXTEND TUPLE { A 1 } ADD ( 1 AS C )
1? EXTEND N : { A := 'x' }
1? EXTEND N : { A := 1, A := 2 }

1? SUM ( W, A ) /* neighbours of these */
1? MIN ( W, A )
1? MAX ( W, A )
1? MAX ( W { A } )
1? OR ( W, B )
1? EXTEND N ADD ( 1 AS B, 2 AS C )
1? EXTEND N : { A := 2, B := 3 }
1? EXTEND N : { B := 1, B := 2 }
1? EXTEND S ADD ( 1 AS STATUS )
1? EXTEND S : { STATUS := 'x' }

1? SUMMARIZE S ADD ( COUNT AS C ) /* summaries */
1? SUMMARIZE 1 ADD ( COUNT AS C )
1? SUMMARIZE S BY { CITY } ADD ( COUNT AS STATUS )
1? SUMMARIZE S BY { CITY } ADD ( COUNT AS CITY )
1? SUMMARIZE S BY { CITY } ADD ( COUNT AS C, COUNT AS C )
1? SUMMARIZE S BY { WEIGHT } ADD ( COUNT AS C )
1? SUMMARIZE S BY { CITY, CITY } ADD ( COUNT AS C )
1? SUMMARIZE S PER P { CITY } : { M := MAX ( SNO ) }
1? SUMMARIZE S PER P : { M := MAX ( SNO ) }
1? SUMMARIZE S PER P { CITY } : { M := MAX ( PNO ) }
1? SUMMARIZE S PER 1 : { M := MAX ( SNO ) }
1? SUMMARIZE S PER P { CITY } ADD ( COUNT AS CITY )
1? SUMMARIZE N PER N ADD ( COUNT AS C ) /* the groups' heading is a part of the relation's, its types too, and may be all of it */
1? SUMMARIZE N PER ( EXTEND TABLE_DEE ADD ( 'x' AS A ) ) ADD ( COUNT AS C )
1? SUMMARIZE N PER ( EXTEND TABLE_DEE ADD ( A AS A ) ) ADD ( COUNT AS C ) /* in it the relation's attributes are not in scope: A is a relvar there */
1? SUMMARIZE S ADD ( SUM ( CITY ) AS C )
1? SUMMARIZE W ADD ( OR ( B ) AS C, MIN ( A ) AS D )
1? SUMMARIZE W ADD ( OR ( A ) AS C )
1? SUMMARIZE W ADD ( MIN ( B ) AS C )

1? SUMMARIZE S BY { CITY } ADD ( COUNT AS C, COUNT AS D ) /* neighbours of these */
1? SUMMARIZE S PER P { CITY } ADD ( COUNT AS C )
1? SUMMARIZE N PER ( EXTEND TABLE_DEE ADD ( 1 AS A ) ) ADD ( COUNT AS C )
1? SUMMARIZE N PER ( EXTEND TABLE_DEE ADD ( COUNT ( A ) AS A ) ) ADD ( COUNT AS C )
1? SUMMARIZE S ADD ( SUM ( STATUS ) AS C )
1? SUMMARIZE W ADD ( OR ( B ) AS C )
1? SUMMARIZE W ADD ( MIN ( A ) AS C )

1? 1 || 'x' /* what each form takes, once more */
1? EXTEND RELATION { TUPLE { A 1 } } ADD ( 'x' AS B )
1? L { X }
1? L JOIN L
1? L { ALL BUT }
1? EXTEND L ADD ( 1 AS Z )
1? RELATION { C TUPLE { A INTEGER } } { } UNWRAP ( C )
1? STATUS FROM TUPLE { STATUS 20, S# 'S1' } + 0
1? S# FROM TUPLE { STATUS 20, S# 'S1' } + 0
1? TUPLE { STATUS 20, S# 'S1' } IN RELATION { S# CHAR, STATUS INTEGER } { }
1? TUPLE { STATUS 20, S# 'S1' } IN RELATION { S# CHAR, STATUS INTEGER, CITY CHAR } { }
1? TUPLE { STATUS 20, S# 'S1' } = TUPLE { STATUS 20, S# 'S1', CITY 'Paris' }

1? RELATION { A CHAR } { } UNGROUP A /* values of other kinds are not opened, and a closure has two attributes */
1? RELATION { A CHAR } { } UNWRAP A
1? TCLOSE RELATION { A CHAR } { }
1? RELATION { A CHAR, B CHAR } { } UNGROUP A
1? RELATION { A CHAR, B CHAR } { } UNWRAP A
1? TCLOSE RELATION { A CHAR, B CHAR } { }
.quit

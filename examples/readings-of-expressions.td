/* Which texts are queries: fault type is said of one that is read, for its names are not there, and fault
   syntax of one that has no reading. */
.begin
1? WITH R JOIN S AS T : T { A } /* every form is read */
1? WITH ( T := R, U := T ) : U
1? A = 1 OR B XOR C AND NOT D
1? NOT NOT A IN R
1? R JOIN S UNION T INTERSECT U MINUS V COMPOSE W MATCHING X SEMIJOIN Y NOT MATCHING Z SEMIMINUS Q
1? R WHERE A <> 1 AND B <= 2
1? R RENAME ( A AS B, B AS A ) RENAME { C AS D }
1? R GROUP ( { A } AS B ) GROUP { ALL BUT B } AS C WRAP ( { } AS D ) WRAP { E, F } AS G
1? R UNGROUP ( A ) UNGROUP B UNWRAP ( C ) UNWRAP D
1? 1 + 2 - 3 || 'x' * 4 / 5
1? - TCLOSE TUPLE FROM A FROM R
1? R { A, B } { ALL BUT C } { } { ALL BUT }
1? TRUE
1? FALSE
1? TABLE_DEE
1? TABLE_DUM
1? THE_X ( P ( ) )
1? P ( 1, 'a' )
1? TUPLE { }
1? TUPLE { A 1, B TUPLE { C R } }
1? RELATION { TUPLE { A 1 }, T }
1? RELATION { } { }
1? RELATION { A INTEGER, B CHAR, C CHARACTER, D BOOLEAN, E U, F TUPLE { }, G RELATION { H INTEGER } } { T }
1? IS_EMPTY ( R )
1? COUNT ( R )
1? SUM ( R ) + MAX ( R, A ) + MIN ( R, A + 1 )
1? AND ( R, A ) OR OR ( R, B )
1? IF A THEN B ELSE C END IF
1? EXTEND r WHERE c ADD ( 1 AS A )
1? EXTEND R : { A := 1, B := A }
1? SUMMARIZE R ADD ( COUNT AS N, SUM ( A ) AS S )
1? SUMMARIZE R PER S : { N := COUNT ( ), M := AND ( B ) }
1? SUMMARIZE R BY { A } ADD ( COUNT ( ) AS N )
1? 1 { A }
1? ( ( A ) )

1? WITH R AS T : T /* what is read, and a near miss of it */
1? WITH R AS T T
1? WITH ( T := R ) : U
1? WITH ( T := R ) U
1? WITH R AS T : A
1? WITH : A
1? A OR B
1? A OR
1? NOT A
1? NOT
1? ( A = B ) = C
1? A = B = C
1? R WHERE ( a = b ) = c
1? R WHERE a = b = c
1? ( A IN B ) IN C
1? A IN B IN C
1? R NOT MATCHING S
1? R NOT S
1? R WHERE A
1? R WHERE
1? R RENAME ( A AS B )
1? R RENAME ( )
1? R RENAME { A AS B }
1? R RENAME ( A AS B }
1? R GROUP ( { A } AS B )
1? R GROUP ( { A } AS B
1? R GROUP { A } AS B
1? R GROUP { A } B
1? R UNGROUP A
1? R UNGROUP { A }
1? 1 + 1
1? 1 +
1? - 1
1? + 1
1? TUPLE FROM R
1? TUPLE FROM
1? A FROM R
1? A FROM
1? R { A, B }
1? R { A B }
1? R { ALL BUT A }
1? R { ALL A }
1? P ( 1 )
1? P ( 1, )
1? TUPLE { A 1 }
1? TUPLE { A }
1? TUPLE { A 1, B 2 }
1? TUPLE { A 1, }
1? RELATION { TUPLE { } }
1? RELATION { }
1? RELATION { A INTEGER } { }
1? RELATION { A INTEGER }
1? RELATION { A B } { T }
1? RELATION { A B } { T, }
1? IS_EMPTY ( R )
1? IS_EMPTY R
1? COUNT ( R )
1? COUNT
1? SUM ( R, A )
1? SUM ( R, A, B )
1? IF A THEN B ELSE C END IF
1? IF A THEN B END IF
1? EXTEND R ADD ( 1 AS A )
1? EXTEND R ADD ( )
1? EXTEND R : { A := 1 }
1? EXTEND R { A := 1 }
1? SUMMARIZE R ADD ( COUNT AS N )
1? SUMMARIZE R ADD ( A AS N )
1? SUMMARIZE R BY { S } ADD ( COUNT AS N )
1? SUMMARIZE R BY S ADD ( COUNT AS N )
1? ( A )
1? ( A
1? A
1? A )
1? A + B
1? A B
1? A
1? A ;

1? SUMMARIZE R PER S : { N := COUNT ( ) } /* a list of summaries in braces; a text of nothing */
1? 
.quit

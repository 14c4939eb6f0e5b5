/* A virtual relvar means its expression, and what that raises is raised where it is needed. */
VAR R BASE INIT ( RELATION { TUPLE { A 1, B 5 }, TUPLE { A 2, B 0 }, TUPLE { A 3, B 2 } } ) KEY { A };
VAR LATER VIRTUAL ( R WHERE A > 1 );
VAR SHARES VIRTUAL ( EXTEND R ADD ( 10 / B AS C ) );
VAR FEW VIRTUAL ( SHARES WHERE C < 5 );
.begin
1? COUNT ( LATER )
1? LATER { A }

1? COUNT ( SHARES ) /* what is raised is raised where the relvar is needed */
1? COUNT ( FEW )
1? IF COUNT ( LATER ) = 2 THEN 1 ELSE COUNT ( FEW ) END IF
1? IF COUNT ( LATER ) = 3 THEN 1 ELSE COUNT ( FEW ) END IF
1? COUNT ( LATER ) = 3 AND IS_EMPTY ( SHARES )
1? IS_EMPTY ( RELATION { A INTEGER } { } WHERE A < COUNT ( SHARES ) )

1? MAX ( R, A + COUNT ( LATER ) ) /* a virtual relvar that is named at each tuple */
1? COUNT ( R WHERE A < COUNT ( LATER ) )
1? COUNT ( R WHERE IF A = 9 THEN IS_EMPTY ( SHARES ) ELSE TRUE END IF )
1? COUNT ( R WHERE IF A = 2 THEN IS_EMPTY ( SHARES ) ELSE TRUE END IF )
1? COUNT ( ( R WHERE A = 1 ) WHERE IS_EMPTY ( SHARES ) )
1? COUNT ( ( R WHERE A = 9 ) WHERE IS_EMPTY ( SHARES ) )

1? COUNT ( LATER ) + COUNT ( LATER JOIN R ) /* one that is named twice, and by two names */
1? WITH LATER AS L : COUNT ( L ) + COUNT ( L JOIN R )
1? IF COUNT ( LATER ) = 2 THEN COUNT ( LATER { B } ) ELSE COUNT ( FEW ) + COUNT ( SHARES ) END IF

1? IF COUNT ( LATER ) = 3 THEN COUNT ( SHARES ) + COUNT ( SHARES ) ELSE COUNT ( LATER ) END IF /* one that is named twice where no branch comes to it, and where one does */
1? COUNT ( LATER ) = 2 OR COUNT ( FEW ) = COUNT ( FEW ) + COUNT ( SHARES )
1? COUNT ( LATER ) = 2 AND ( COUNT ( FEW ) = 0 OR IS_EMPTY ( FEW ) )
1? COUNT ( R WHERE A < COUNT ( LATER ) + COUNT ( LATER ) OR IS_EMPTY ( SHARES UNION SHARES ) )
1? COUNT ( R WHERE A > COUNT ( LATER ) OR COUNT ( SHARES ) + COUNT ( SHARES ) = 0 )
1? IF 1 = 2 THEN COUNT ( FEW ) ELSE IF 1 = 2 THEN COUNT ( FEW ) ELSE COUNT ( LATER { B } ) END IF END IF
.quit

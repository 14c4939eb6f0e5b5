/* Conditions and references that go by a key, once tuples came by small statements, beside such as are walked. */
VAR R BASE RELATION { A INTEGER, B INTEGER, C CHAR } KEY { A } KEY { C, B };
VAR Q BASE RELATION { D INTEGER, A INTEGER } KEY { D };
CONSTRAINT REFERS IS_EMPTY ( Q NOT MATCHING R );
.begin
1: INSERT R RELATION { TUPLE { A 1, B 1, C 'a' } };
1: INSERT R RELATION { TUPLE { A 2, B 2, C 'a' } };
1: INSERT R RELATION { TUPLE { A 3, B 3, C 'a' } };
1: INSERT R RELATION { TUPLE { A 4, B 4, C 'a' } };
1: INSERT R RELATION { TUPLE { A 5, B 0, C 'a' } };
1: INSERT R RELATION { TUPLE { A 6, B 1, C 'b' } };
1: INSERT R RELATION { TUPLE { A 7, B 2, C 'b' } };
1: INSERT R RELATION { TUPLE { A 8, B 3, C 'b' } };
1: INSERT R RELATION { TUPLE { A 9, B 4, C 'b' } };
1: INSERT R RELATION { TUPLE { A 10, B 0, C 'b' } };
1: INSERT R RELATION { TUPLE { A 11, B 1, C 'c' } };
1: INSERT R RELATION { TUPLE { A 12, B 2, C 'c' } };
1: INSERT R RELATION { TUPLE { A 13, B 3, C 'c' } };
1: INSERT R RELATION { TUPLE { A 14, B 4, C 'c' } };
1: INSERT R RELATION { TUPLE { A 15, B 0, C 'c' } };
1: INSERT R RELATION { TUPLE { A 16, B 1, C 'd' } };
1: INSERT R RELATION { TUPLE { A 17, B 2, C 'd' } };
1: INSERT R RELATION { TUPLE { A 18, B 3, C 'd' } };
1: INSERT R RELATION { TUPLE { A 19, B 4, C 'd' } };
1: INSERT R RELATION { TUPLE { A 20, B 0, C 'd' } };
1? R WHERE A = 7
1? R WHERE A = 70
1? R WHERE 7 = A
1? R WHERE A = 3 + 4
1? R WHERE A = MAX ( R, A )
1? R WHERE A = 1 / 0 /* raised at each tuple */
1? R WHERE A = 7 AND 10 / B = 5 /* behind the key it is asked of the tuple that was found */
1? R WHERE A = 5 AND 10 / B = 5
1? R WHERE 10 / B = 5 AND A = 7 /* in front of the key of all */
1? R WHERE A = 7 AND A = 8
1? R WHERE A = B
1? R WHERE B = 2 AND C = 'b' /* the second key, in either order */
1? R WHERE C = 'b' AND B = 2
1? R WHERE C = 'b' AND B = 2 AND A > 7
1? R WHERE C = 'b' AND A > 7 AND B = 3
1? R WHERE C = 'b' AND 10 / B = 5 AND B = 2 /* a part of the key, and then what raises */
1? R WHERE C = 'b'
1? R WHERE A = 7 OR A = 8
1? R WHERE NOT ( A = 7 ) AND A < 3
1? WITH ( N := 7 ) : R WHERE A = N /* names around, and names that attributes hide */
1? COUNT ( WITH ( A := 7 ) : R WHERE A = A )
1? EXTEND RELATION { TUPLE { X 7 }, TUPLE { X 70 } } ADD ( COUNT ( R WHERE A = X ) AS N )
1? ( R RENAME ( A AS X ) ) { X, B } WHERE X = 7
1? RELATION { TUPLE { A 7, E 1 }, TUPLE { A 70, E 2 } } MATCHING R
1? RELATION { TUPLE { A 7, E 1 }, TUPLE { A 70, E 2 } } NOT MATCHING R
1? RELATION { TUPLE { A 7, B 2 }, TUPLE { A 8, B 2 } } MATCHING R /* common attributes that are more than a key */
1? RELATION { TUPLE { B 2, C 'b' }, TUPLE { B 2, C 'e' } } NOT MATCHING R
1? RELATION { TUPLE { C 'b' }, TUPLE { C 'e' } } NOT MATCHING R /* and fewer */
1? RELATION { TUPLE { E 1 } } MATCHING R /* and none */
1: DELETE R WHERE A = 7;
1? COUNT ( R )
1: DELETE R WHERE A = 7;
1: UPDATE R WHERE A = 8 ( B := 2 );
1? R WHERE B = 2 AND C = 'b'
1? R WHERE B = 3 AND C = 'b'
1: UPDATE R WHERE A = 9 ( A := 10 );
1? R WHERE A = 9
1? R WHERE A = 10
1: UPDATE R WHERE A = 9 AND 10 / B > 0 ( C := 'z' );
1: DELETE R WHERE A = 10 AND 10 / B = 1;
1? R WHERE A = 10
1: UPDATE R WHERE A = MAX ( R, A ) ( A := A + 1 );
1? R WHERE A = 20
1? R WHERE A = 21
1: INSERT Q RELATION { TUPLE { D 1, A 8 } };
1: INSERT Q RELATION { TUPLE { D 2, A 7 } };
1: DELETE R WHERE A = 8;
1? R WHERE A = 8
1: UPDATE R WHERE A = 8 ( A := 7 );
1: UPDATE R WHERE A = 8 ( B := 3 );
1? Q MATCHING R
1? R MATCHING Q
1: DELETE Q WHERE D = 1, DELETE R WHERE A = 8;
1? COUNT ( R )
1? COUNT ( Q )
.quit

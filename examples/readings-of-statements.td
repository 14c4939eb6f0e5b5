/* Which texts are statements: fault type is said of one that is read, where its relvars are not there, and fault
   syntax of one that has no reading. */
VAR CELL BASE INIT ( RELATION { TUPLE { K 1, A 1, B 1, C 0 }, TUPLE { K 2, A 1, B 2, C 0 } } ) KEY { K };
VAR W BASE INIT ( RELATION { TUPLE { A 2 } } ) KEY { A };
VAR X BASE INIT ( RELATION { TUPLE { A 1 } } ) KEY { A };
VAR Y BASE INIT ( RELATION { TUPLE { A 3 } } ) KEY { A };
VAR Z BASE INIT ( RELATION { TUPLE { A 4 } } ) KEY { A };
.begin
1: S := S MINUS T; /* every action is read */
1: INSERT S RELATION { TUPLE { A 1 } };
1: DELETE S;
1: delete S where A = 1;
1: UPDATE S ( A := 1 );
1: UPDATE S { A := 1, B := A };
1: UPDATE S : { A := 1 };
1: UPDATE S WHERE A = 1 : { A := A + 1 };
1: UPDATE S WHERE A = B ( C := 1 );
1: UPDATE S WHERE A = B { C := 1 };
1: S := T, INSERT T S, DELETE U, UPDATE V ( A := 1 );

1: DELETE S; /* what is read, and near misses of it */
1: ;
1: S := T;
1: S := T
1: S := T;;
1: S := T, T := S;
1: S := T, ;
1: S := T;
1: S = T;
1: := T;
1: INSERT S T;
1: INSERT S;
1: INSERT S RELATION { T };
1: INSERT RELATION { T };
1: DELETE S;
1: DELETE;
1: DELETE S WHERE A;
1: DELETE S WHERE;
1: DELETE S, WHERE A;
1: UPDATE S ( A := 1 );
1: UPDATE S;
1: UPDATE S ( );
1: UPDATE S { A := 1 };
1: UPDATE S { };
1: UPDATE S : { A := 1 };
1: UPDATE S : ( A := 1 );
1: UPDATE S ( A := 1 );
1: UPDATE S ( A := 1 };
1: UPDATE S { A := 1 };
1: UPDATE S { A = 1 };
1: UPDATE S WHERE B { A := 1 };
1: UPDATE S WHERE { A := 1 };
1: S := WITH T AS U : U;
1: S := WITH;

1: UPDATE CELL WHERE A = B ( C := 1 ); /* a condition ends before what is set */
1? CELL
1: UPDATE CELL WHERE A = B { C := 2 };
1? CELL
1: UPDATE CELL WHERE A = B : { C := 3 };
1? CELL

1: W := X, INSERT X W, DELETE Y, UPDATE Z ( A := 1 ); /* each action stands for itself */
1? W
1? X
1? Y
1? Z

1: S := T, DELETE U WHERE A = 1; /* several actions; a text of none */
1: 

1: IF A THEN DELETE S; END IF; /* conditional statements */
1: if a then delete S; end if;
1: IF IS_EMPTY ( S ) THEN S := T; ELSE UPDATE S ( A := 1 ); END IF;
1: IF IF A THEN B ELSE C END IF THEN DELETE S; END IF;
1: IF A THEN S := IF B THEN T ELSE U END IF; ELSE INSERT S T; END IF;
1: IF A THEN DELETE S; /* ELSE */ END /* */ IF;

1: IF A THEN DELETE S END IF; /* near misses of these */
1: IF A THEN DELETE S ELSE DELETE T; END IF;
1: IF A THEN DELETE S; ELSE DELETE T END IF;
1: IF A THEN DELETE S; END IF
1: IF A THEN DELETE S; END;
1: IF A THEN DELETE S; IF;
1: IF A THEN DELETE S;
1: IF A DELETE S; END IF;
1: IF THEN DELETE S; END IF;
1: IF A THEN END IF;
1: IF A THEN ; END IF;
1: IF A THEN DELETE S; ELSE END IF;
1: IF A THEN DELETE S; ELSE ; END IF;
1: IF A THEN ELSE DELETE S; END IF;
1: IF A THEN DELETE S; DELETE T; END IF;
1: IF A THEN DELETE S; ELSE DELETE T; ELSE DELETE U; END IF;
1: IF A THEN IF B THEN DELETE S; END IF; END IF;
1: IF A THEN DELETE S; ELSE IF B THEN DELETE T; END IF; END IF;
1: IF A THEN DELETE S, IF B THEN DELETE T; END IF; END IF;
1: IF A THEN DELETE S; END IF, DELETE T;
1: DELETE T, IF A THEN DELETE S; END IF;
1: IF A THEN DELETE S; END IF; DELETE T;
1: IF A THEN B ELSE C END IF;
1: IF A THEN TRUE; END IF;
1: END IF;
1: END
1: ELSE DELETE S;

1: IF TRUE THEN DELETE W; END IF; /* each list has its actions, and no more */
1: IF FALSE THEN DELETE X; END IF;
1? W
1? X
1: IF FALSE THEN DELETE Z, Y := X; END IF;
1? Z
1? Y
1: IF TRUE THEN DELETE X, Y := Z; END IF;
1? X
1? Y
1: IF FALSE THEN DELETE X; ELSE W := Z, DELETE Y, DELETE Z; END IF;
1? W
1? Y
1? Z
1: IF TRUE THEN DELETE Z; ELSE X := W, DELETE W, DELETE Y; END IF;
1? X
1? W
1: X := IF TRUE THEN W ELSE Y END IF;
1? X
.quit

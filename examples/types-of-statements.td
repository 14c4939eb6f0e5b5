/* A target is a stored relvar, a source has its heading, and an item its attribute's type. */
VAR S BASE RELATION { SNO CHAR, STATUS INTEGER, CITY CHAR } KEY { SNO };
VAR SP BASE RELATION { SNO CHAR, PNO CHAR, QTY INTEGER } KEY { SNO, PNO };
VAR LS VIRTUAL ( S WHERE CITY = 'London' );
CONSTRAINT C1 IS_EMPTY ( SP NOT MATCHING S );
CONSTRAINT C2 IS_EMPTY ( LS WHERE STATUS < 10 );
VAR MOST BASE RELATION { N INTEGER } KEY { };
CONSTRAINT C3 IS_EMPTY ( MOST WHERE N < COUNT ( LS ) );
VAR BOX BASE RELATION { K CHAR, CONTENTS RELATION { A INTEGER } } KEY { K };
.begin
1: INSERT S RELATION { TUPLE { SNO 'S1', STATUS 20, CITY 'Paris' } };
1: INSERT S RELATION { TUPLE { SNO 'S1', STATUS 20, CITY 'Paris' } }, MOST := EXTEND TABLE_DEE ADD ( COUNT ( S ) AS N ), INSERT S LS, DELETE S WHERE SNO = 'S2';
1: SP := SP, S := S;

1: INSERT LS S; /* a target is a real relvar, and a source has its heading */
1: DELETE LS;
1: UPDATE LS ( STATUS := 1 );
1: LS := S;
1: NOSUCH := S;
1: S := SP;
1: S := 1;
1: INSERT S SP;
1: S := S, SP := S;
1: DELETE S;
1: DELETE S WHERE STATUS = 1;
1: DELETE S WHERE STATUS;
1: DELETE S WHERE QTY = 1;
1: UPDATE S ( STATUS := STATUS + 1 );
1: UPDATE S WHERE STATUS = 1 ( CITY := SNO, SNO := CITY );
1: UPDATE S WHERE STATUS ( CITY := SNO );

1: UPDATE S ( X := 1 ); /* an item names an attribute, has its type, and sees the tuple's attributes */
1: UPDATE S ( STATUS := 'x' );
1: UPDATE S ( STATUS := QTY );
1: UPDATE S ( STATUS := 1, STATUS := 2 );
1: UPDATE S WHERE STATUS = 1 ( X := 1 );
1: UPDATE S WHERE STATUS = 1 ( STATUS := 'x' );

1: UPDATE BOX ( CONTENTS := RELATION { A INTEGER } { } ); /* also where only the types inside a relation differ */
1: UPDATE BOX ( CONTENTS := RELATION { A CHAR } { } );
1: UPDATE BOX WHERE K = 'x' ( CONTENTS := RELATION { A CHAR } { } );
1: UPDATE BOX WHERE K = 'x' ( CONTENTS := RELATION { A INTEGER } { } );
1: S := S { SNO, STATUS, CITY }; /* neighbours of these */
1: INSERT S LS;
1: UPDATE S WHERE STATUS = 1 ( STATUS := 2 );
1: UPDATE S ( STATUS := 1, CITY := 'x' );
.quit

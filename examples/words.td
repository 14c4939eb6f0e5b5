/* Which words a text has: each symbol is the longest one, quotes are doubled, keywords are in either case. */
VAR QUOTED BASE INIT ( RELATION { TUPLE { N 1, T 'it''s' }, TUPLE { N 2, T '' }, TUPLE { N 3, T '''' } } ) KEY { N };
TYPE T POSSREP isempty { X INTEGER };
.begin
1? 2<=3 /* symbols */
1? 3<=2
1? 2< =3
1? 2<>3
1? 2< >3
1? WITH ( X:=3 ):X=3
1? WITH ( X: =3 ):X=3
1? EXTEND TABLE_DEE:{ X:=3 }
1? 'a'||'b'
1? 'a'||||'b'
1? 'a'|'b'

1? QUOTED /* texts */
.csv 1 QUOTED

1? Is_Empty ( TABLE_DUM ) /* keywords, names and integers */
1? isempty ( 7 )
1? TABLE_DEE where TRUE
1? WITH 7 AS x#_1 : x#_1
1? WITH 7 AS S# : S#
1? WITH 7 AS 1S : 7
1? WITH 7 AS #S : 7
1? WITH 7 AS _S : 7
1? WITH 7 AS S-1 : 7
1? WITH 7 AS é : 7
1? WITH 7 AS : 7
1? 007
1? 9223372036854775807
1? 9223372036854775808
1? 1 /*/ é **/ + 1
.quit

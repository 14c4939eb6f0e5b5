VAR S BASE RELATION { SNO CHAR, STATUS INTEGER, CITY CHAR } KEY { SNO };
VAR SP BASE RELATION { SNO CHAR, PNO CHAR, QTY INTEGER } KEY { SNO, PNO };
VAR LS VIRTUAL ( S WHERE CITY = 'London' );
VAR V VIRTUAL ( EXTEND S ADD ( 100 / STATUS AS R ) );
CONSTRAINT C1 IS_EMPTY ( SP NOT MATCHING S );
.begin
1: INSERT S RELATION { TUPLE { SNO 'S1', STATUS 20, CITY 'London' } };
.meet 1 2
1: DELETE S WHERE SNO = 'S1';
2: INSERT SP RELATION { TUPLE { SNO 'S1', PNO 'P1', QTY 200 } };
2? COUNT ( S ) @ 2.2
2? COUNT ( SP ) @ 2.2
2? COUNT ( SP ) @ 1.1
2? S @ 2.1
1? COUNT ( S ) @ 2.1
1? COUNT ( S ) @ 1.1
.meet 1 2
2? LS @ 1.1
2? S @ 2.1
2? S @ 2.2
1? SP @ 2.2
2? SP @ 1.1
2? S @ 9.1
2? NOSUCH @ 9.1
2? S @ 01.1
2? S @ 1.01
2? S @ 0.0
2? S @ 1.3
2? S @ 1.65536
2? S @ 1.99999999999999999999
2? S @ 99999999999999999999.1
2? S @1.1
2? S@ 1.1
2? S @  1.1
2? S @ 1.1 
2? S @ 1
2? S @ 1.
2? S @ .1
2? @ 1.1
2?  @ 1.1
2? S @ 1.1 @ 1.1
2? 'x @ 1.1'
2? 'x @ 1.1' @ 1.1
2? 'x @ 1.1' || ' @ ' @ 2.1
9? S @ 1.1
2? 1 / 0 @ 1.1
2? 1 / 0 @ 9.1
1: INSERT S RELATION { TUPLE { SNO 'S2', STATUS 0, CITY 'Paris' } };
1? V { R }
1? V { R } @ 1.1
1? V { R } @ 2.1
1? V { R } @ 3.1
1: DELETE S;
1? V { R }
1? V { R } @ 3.1
1? V { R } @ 1.1
1? WITH S AS T : COUNT ( T ) @ 3.1
1? IS_EMPTY ( S ) AND IS_EMPTY ( SP ) @ 4.1
.vector 1
.quit

/* Conditions that begin with the values of a relvar's first key, of one attribute and of two, and others. */
VAR S BASE INIT ( RELATION { TUPLE { SNO 'S1', STATUS 20, CITY 'London' }, TUPLE { SNO 'S2', STATUS 10, CITY 'Paris' } } ) KEY { SNO };
VAR SP BASE INIT ( RELATION { TUPLE { SNO 'S1', PNO 'P1', QTY 300 }, TUPLE { SNO 'S1', PNO 'P2', QTY 200 } } ) KEY { SNO, PNO };
VAR LONDON VIRTUAL ( S WHERE CITY = 'London' );
.begin
1? S WHERE SNO = 'S1' /* the value of a tuple, that of none, and one with more behind it */
1? S WHERE SNO = 'S3'
1? S WHERE SNO = 'S1' AND STATUS = 10
1? S WHERE SNO = 'S1' AND SNO = 'S2'
1? SP WHERE SNO = 'S1' AND PNO = 'P2'
1? SP WHERE PNO = 'P2' /* a part of a key, no key, and a virtual relvar */
1? S WHERE STATUS = 10
1? LONDON WHERE SNO = 'S1'
.quit

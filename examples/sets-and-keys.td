/* A relation is a set, whatever puts tuples in and takes them out, and a key tells its tuples apart. */
VAR R BASE INIT ( RELATION { TUPLE { A 3 }, TUPLE { A 1 }, TUPLE { A 2 }, TUPLE { A 3 }, TUPLE { A 1 } } ) KEY { A };
VAR Q BASE INIT ( RELATION { TUPLE { A 1 }, TUPLE { A 2 } } ) KEY { A };
VAR V VIRTUAL ( Q WHERE A > 3 );
VAR E BASE RELATION { A INTEGER } KEY { A };
VAR BY_PART BASE INIT ( RELATION { TUPLE { SNO 'S1', PNO 'P1' }, TUPLE { SNO 'S1', PNO 'P2' } } ) KEY { PNO };
VAR BY_SUPPLIER BASE INIT ( RELATION { TUPLE { SNO 'S1', PNO 'P2' } } ) KEY { SNO };
.begin
1? R /* what is there is not put in twice, and what is not there is not taken out */
1? TUPLE { A 2 } IN R
1: INSERT R RELATION { TUPLE { A 2 } };
1? COUNT ( R )
1? TUPLE { A 0 } IN R
1: INSERT R RELATION { TUPLE { A 0 } };
1? COUNT ( R )
1? TUPLE { A 1 } IN R
1: DELETE R WHERE A = 1;
1? COUNT ( R )
1? TUPLE { A 1 } IN R
1: DELETE R WHERE A = 1;
1? COUNT ( R )
1? R

1: Q := RELATION { TUPLE { A 3 }, TUPLE { A 4 } }; /* queries go by what relvars have, and not by what they had at first */
1? Q
1? V
1? Q WHERE 1 / ( A - 4 ) = 1
1? E

1: INSERT BY_PART RELATION { TUPLE { SNO 'S1', PNO 'P1' } }; /* new tuples are told from those that are there, by a key */
1: INSERT BY_PART RELATION { TUPLE { SNO 'S2', PNO 'P1' } };
1: INSERT BY_SUPPLIER RELATION { TUPLE { SNO 'S1', PNO 'P1' } };
1: INSERT BY_SUPPLIER RELATION { TUPLE { SNO 'S2', PNO 'P1' } };
1? COUNT ( BY_PART )
1? COUNT ( BY_SUPPLIER )
.quit

/* Relvars as CSV: values that are quoted, a relvar that raises, one without attributes, and one that is not there. */
VAR V BASE RELATION { A CHAR } KEY { A };
VAR W VIRTUAL ( EXTEND V ADD ( 1 / 0 AS N ) );
VAR NOTHING BASE RELATION { } KEY { };
.begin
1: V := RELATION { TUPLE { A '' }, TUPLE { A 'a,b' }, TUPLE { A 'c"d' } };
.csv 1 V
.csv 1 W
.csv 1 NOTHING
.csv 1 v
.listing 1
.quit

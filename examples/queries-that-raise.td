/* A query raises where a tuple does, of several errors the least, and over no tuples nothing. */
VAR S BASE RELATION { SNO CHAR, STATUS INTEGER, CITY CHAR } KEY { SNO };
.begin
1? S WHERE STATUS = 1 / 0 /* over no tuples */
1: INSERT S RELATION { TUPLE { SNO 'S1', STATUS 0, CITY 'Paris' } };
1? S WHERE STATUS = 1 / 0 /* at the only tuple */
1: INSERT S RELATION { TUPLE { SNO 'S2', STATUS 9223372036854775807, CITY 'Paris' } };
1? S WHERE 1 / STATUS = 9223372036854775807 + STATUS /* at one tuple a divisor of 0, at the other one a sum that is too large */
.quit

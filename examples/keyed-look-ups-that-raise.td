/* A condition that begins with the values of a key is asked of the tuple that is found; what raises in front of that, or beside the key's value, raises where there is a tuple, and over none it does not. */
VAR S BASE RELATION { SNO CHAR, STATUS INTEGER, CITY CHAR } KEY { SNO };
.begin
1? S WHERE SNO = IF 1 / 0 = 1 THEN 'a' ELSE 'b' END IF /* over no tuples */
1: INSERT S RELATION { TUPLE { SNO 'S1', STATUS 1, CITY 'Paris' }, TUPLE { SNO 'S2', STATUS 0, CITY 'Paris' } };
1? S WHERE SNO = 'S1' AND 1 / STATUS = 1 /* the tuple that would raise is not found */
1? S WHERE 1 / STATUS = 1 AND SNO = 'S1' /* it is asked first */
1? S WHERE SNO = IF 1 / 0 = 1 THEN 'a' ELSE 'b' END IF
.quit

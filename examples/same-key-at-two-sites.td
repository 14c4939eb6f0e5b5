VAR S BASE RELATION { SNO CHAR, STATUS INTEGER, CITY CHAR } KEY { SNO };
.begin
1: INSERT S RELATION { TUPLE { SNO 'S1', STATUS 20, CITY 'London' } };
2: INSERT S RELATION { TUPLE { SNO 'S1', STATUS 20, CITY 'Paris' } };
.meet 1 2
.listing 1
.listing 2
.log 2
.quit

/* Lines that are refused, in the order of faults; behind each nothing is held, and an empty line is none. */
VAR S BASE RELATION { SNO CHAR, STATUS INTEGER, CITY CHAR } KEY { SNO };
.begin
hello
.listing 1

00
.listing 1

00: x
.listing 1

1
.listing 1

.listing
.listing 1

.listing 01
.listing 1

.listing 1 
.listing 1

.meet 1  2
.listing 1

.csv 1
.listing 1

.serve 1 
.listing 1

.begin
.listing 1

.listing 9
.listing 1

.listing 0
.listing 1

.listing 4294967297
.listing 1

.meet 1 1
.listing 1

.meet 1 3
.listing 1

.meet 3 1
.listing 1

.log 3
.listing 1

.vector 3
.listing 1

.csv 3 NOSUCH
.listing 1

.call 3 nowhere
.listing 1

.serve 3 127.0.0.1:7001
.listing 1

3? NOSUCH
.listing 1

0: x
.listing 1

65537: x
.listing 1

.call 1 nowhere
.listing 1

.serve 1 127.0.0.1
.listing 1

.csv 1 NOSUCH
.listing 1

.csv 1 12
.listing 1

1:
.listing 1

1?
.listing 1

1: INSERT S;
.listing 1

1: INSERT S RELATION { };
.listing 1

1? S;
.listing 1

1: INSERT S RELATION { TUPLE { SNO 'S1' } };
.listing 1

1: INSERT LS S;
.listing 1

1? NOSUCH
.listing 1

.quit

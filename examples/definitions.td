/* What is written of a type and of keys holds: a possrep of another name, its CONSTRAINT, and two keys. */
TYPE T POSSREP P { X INTEGER CONSTRAINT X > 0 };
VAR S REAL RELATION { A T, B T } KEY { A } KEY { B };
.begin
1? P ( 1 )
1? P ( 0 )
1? T ( 1 )
1? RELATION { TUPLE { A P ( 1 ) } }
1: INSERT S RELATION { TUPLE { A P ( 1 ), B P ( 1 ) } };
1: INSERT S RELATION { TUPLE { A P ( 1 ), B P ( 2 ) } };
1: INSERT S RELATION { TUPLE { A P ( 2 ), B P ( 1 ) } };
1: INSERT S RELATION { TUPLE { A P ( 2 ), B P ( 2 ) } };
1? S
.quit

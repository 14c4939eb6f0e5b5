/* Keys of a relvar of many tuples, whose tuples are kept by its keys once enough statements have added to it: what is told is the same before and after. */
VAR R BASE INIT ( RELATION { TUPLE { A 1, B 0, C 101 }, TUPLE { A 2, B 0, C 102 }, TUPLE { A 3, B 0, C 103 }, TUPLE { A 4, B 0, C 104 }, TUPLE { A 5, B 0, C 105 }, TUPLE { A 6, B 0, C 106 }, TUPLE { A 7, B 0, C 107 }, TUPLE { A 8, B 0, C 108 }, TUPLE { A 9, B 0, C 109 }, TUPLE { A 10, B 0, C 110 }, TUPLE { A 11, B 0, C 111 }, TUPLE { A 12, B 0, C 112 }, TUPLE { A 13, B 0, C 113 }, TUPLE { A 14, B 0, C 114 }, TUPLE { A 15, B 0, C 115 }, TUPLE { A 16, B 0, C 116 }, TUPLE { A 17, B 0, C 117 }, TUPLE { A 18, B 0, C 118 }, TUPLE { A 19, B 0, C 119 }, TUPLE { A 20, B 0, C 120 }, TUPLE { A 21, B 0, C 121 }, TUPLE { A 22, B 0, C 122 }, TUPLE { A 23, B 0, C 123 }, TUPLE { A 24, B 0, C 124 }, TUPLE { A 25, B 0, C 125 }, TUPLE { A 26, B 0, C 126 }, TUPLE { A 27, B 0, C 127 }, TUPLE { A 28, B 0, C 128 }, TUPLE { A 29, B 0, C 129 }, TUPLE { A 30, B 0, C 130 }, TUPLE { A 31, B 0, C 131 }, TUPLE { A 32, B 0, C 132 } } ) KEY { C } KEY { B, A };
VAR ONE BASE RELATION { N INTEGER } KEY { };
CONSTRAINT SMALL IS_EMPTY ( R WHERE C > 900 );
.begin
1: INSERT R RELATION { TUPLE { A 33, B 0, C 101 } }; /* before the tuples are kept by keys */
1: INSERT R RELATION { TUPLE { A 1, B 0, C 133 } };
1: INSERT R RELATION { TUPLE { A 33, B 0, C 133 } };
1: INSERT R RELATION { TUPLE { A 34, B 0, C 134 } };
1: INSERT R RELATION { TUPLE { A 35, B 0, C 135 } };
1: INSERT R RELATION { TUPLE { A 36, B 0, C 136 } };
1: INSERT R RELATION { TUPLE { A 37, B 0, C 137 } };
1: INSERT R RELATION { TUPLE { A 38, B 0, C 138 } };
1: INSERT R RELATION { TUPLE { A 39, B 0, C 139 } };
1: INSERT R RELATION { TUPLE { A 40, B 0, C 140 } };
1: INSERT R RELATION { TUPLE { A 41, B 0, C 141 } };
1: INSERT R RELATION { TUPLE { A 42, B 0, C 142 } };
1: INSERT R RELATION { TUPLE { A 43, B 0, C 143 } };
1: INSERT R RELATION { TUPLE { A 44, B 0, C 144 } };
1: INSERT R RELATION { TUPLE { A 45, B 0, C 145 } };
1: INSERT R RELATION { TUPLE { A 46, B 0, C 146 } };
1: INSERT R RELATION { TUPLE { A 47, B 0, C 147 } };
1: INSERT R RELATION { TUPLE { A 48, B 0, C 148 } };
1: INSERT R RELATION { TUPLE { A 49, B 0, C 149 } };
1: INSERT R RELATION { TUPLE { A 60, B 0, C 101 } }; /* and after */
1: INSERT R RELATION { TUPLE { A 1, B 0, C 160 } }; /* the second key is of B and A */
1: INSERT R RELATION { TUPLE { A 0, B 1, C 160 } }; /* which is not of A and B */
1: INSERT R RELATION { TUPLE { A 60, B 0, C 101 } }; /* a refused statement leaves nothing behind */
1: INSERT R RELATION { TUPLE { A 61, B 0, C 161 }, TUPLE { A 62, B 0, C 161 } }; /* neither of two tuples of one key */
1: INSERT R RELATION { TUPLE { A 61, B 0, C 161 } };
1: INSERT R RELATION { TUPLE { A 62, B 0, C 161 } };
1: INSERT R RELATION { TUPLE { A 62, B 0, C 962 } };
1: INSERT R RELATION { TUPLE { A 62, B 0, C 162 } };
1: INSERT R RELATION { TUPLE { A 62, B 0, C 162 } }; /* it is there */
1: UPDATE R WHERE C <= 102 ( C := 203 - C ); /* two keys exchanged */
1: INSERT R RELATION { TUPLE { A 63, B 0, C 101 } };
1: DELETE R WHERE C = 101; /* which is now that of A 2 */
1: INSERT R RELATION { TUPLE { A 1, B 0, C 163 } };
1: INSERT R RELATION { TUPLE { A 2, B 0, C 101 } };
1: INSERT R RELATION { TUPLE { A 63, B 0, C 102 } };
1: UPDATE R WHERE A = 3 ( A := 4 );
1: INSERT R RELATION { TUPLE { A 64, B 0, C 103 } };
1: UPDATE R WHERE A = 3 ( C := 903 );
1: INSERT R RELATION { TUPLE { A 64, B 0, C 164 } };
1: UPDATE R WHERE A = 64 ( C := 103, B := 1 ), INSERT ONE RELATION { TUPLE { N 1 } };
1: UPDATE R WHERE A = 64 ( C := 165, B := 1 ), INSERT ONE RELATION { TUPLE { N 1 } };
1: INSERT R RELATION { TUPLE { A 64, B 0, C 165 } };
1: INSERT R RELATION { TUPLE { A 64, B 0, C 164 } }; /* both are free again */
1: INSERT ONE RELATION { TUPLE { N 2 } }; /* a key of no attributes */
1: INSERT ONE RELATION { TUPLE { N 1 } };
1: UPDATE ONE ( N := 2 );
1: DELETE R WHERE A > 4 AND A < 60;
1: INSERT R RELATION { TUPLE { A 5, B 0, C 104 } };
1: INSERT R RELATION { TUPLE { A 5, B 0, C 105 } };
2: INSERT R RELATION { TUPLE { A 70, B 0, C 133 } }; /* after a meeting it stands before the statement that was done */
.meet 1 2
.listing 2
.quit

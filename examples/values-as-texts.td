TYPE QTY POSSREP Q2 { Q INTEGER };
TYPE POINT POSSREP { X INTEGER, Y INTEGER };
.begin
1? TRUE
1? -7
1? -9223372036854775807 - 1
1? 'it''s'
1? POINT ( 1, 2 )
1? TUPLE { }
1? TUPLE { A TUPLE { B -9223372036854775807 - 1 } }
1? TUPLE { R RELATION { TUPLE { A Q2 ( 5 ) } } }
1? RELATION { TUPLE { A 2 }, TUPLE { A 1 } }
1? RELATION { TUPLE { A Q2 ( 6 ) }, TUPLE { A Q2 ( 5 ) }, TUPLE { A Q2 ( 6 ) } }
1? RELATION { TUPLE { A Q2 ( 5 ) } } = RELATION { TUPLE { A Q2 ( 5 ) }, TUPLE { A Q2 ( 5 ) } }
1? RELATION { TUPLE { R RELATION { TUPLE { A 2 }, TUPLE { A 2 } } }, TUPLE { R RELATION { TUPLE { A 1 }, TUPLE { A 2 } } }, TUPLE { R RELATION { TUPLE { A 2 }, TUPLE { A 1 } } } }
1? RELATION { TUPLE { T '𐀀' }, TUPLE { T '￿' }, TUPLE { T 'é' }, TUPLE { T 'aaaaaaaaaaaa𐀀' }, TUPLE { T 'aaaaaaaaaaaaa𐀀' }, TUPLE { T 'aaaaaaaaaaaaaaéa' }, TUPLE { T 'aaaaaaaaaaaaaaé' }, TUPLE { T 'aaaaaaaaaaaaaaaé' }, TUPLE { T 'aaaaaaaaaaaaaaaaa' }, TUPLE { T 'aaaaaaaaaaaaaaaa' }, TUPLE { T 'aaaaaaaaaaaaaaa' }, TUPLE { T 'Z' }, TUPLE { T '' } }
1? RELATION { TUPLE { A 1 }, TUPLE { A 2 }, TUPLE { A 4 } } UNION RELATION { TUPLE { A 5 }, TUPLE { A 2 }, TUPLE { A 3 } }
1? RELATION { TUPLE { A 5 }, TUPLE { A 2 }, TUPLE { A 3 } } UNION RELATION { TUPLE { A 1 }, TUPLE { A 2 }, TUPLE { A 4 } }
1? RELATION { TUPLE { A 1 }, TUPLE { A 2 }, TUPLE { A 4 } } INTERSECT RELATION { TUPLE { A 5 }, TUPLE { A 2 }, TUPLE { A 3 } }
1? RELATION { TUPLE { A 1 }, TUPLE { A 2 }, TUPLE { A 4 } } MINUS RELATION { TUPLE { A 5 }, TUPLE { A 2 }, TUPLE { A 3 } }
1? RELATION { TUPLE { A 5 }, TUPLE { A 2 }, TUPLE { A 3 } } MINUS RELATION { TUPLE { A 1 }, TUPLE { A 2 }, TUPLE { A 4 } }
1? TABLE_DEE
1? TABLE_DUM
1? TABLE_DUM UNION TABLE_DEE
1? TABLE_DUM INTERSECT TABLE_DEE
1? TABLE_DEE MINUS TABLE_DUM
1? TABLE_DEE MINUS TABLE_DEE

1? '' || '' = '' /* a text is the same however it is made */
1? 'Z' || '' = 'Z'
1? 'aaaaaaa' || 'aaaaaaaa' = 'aaaaaaaaaaaaaaa'
1? 'aaaaaaaa' || 'aaaaaaaa' = 'aaaaaaaaaaaaaaaa'
1? 'aaaaaaaa' || 'aaaaaaaaa' = 'aaaaaaaaaaaaaaaaa'
1? 'aaaaaaaaaaaaaaa' || 'é' = 'aaaaaaaaaaaaaaaé'
1? 'aaaaaaaaaaaaaa' || 'é' = 'aaaaaaaaaaaaaaé'
1? 'aaaaaaaaaaaaaaé' || 'a' = 'aaaaaaaaaaaaaaéa'
1? 'aaaaaaaaaaaaa' || '𐀀' = 'aaaaaaaaaaaaa𐀀'
1? 'aaaaaaaaaaaa' || '𐀀' = 'aaaaaaaaaaaa𐀀'
1? '' || 'é' = 'é'
1? '' || '￿' = '￿'
1? '' || '𐀀' = '𐀀'

1? RELATION { STATUS INTEGER, S# CHAR, CITY CHAR } { } /* attributes stand in the order of their names, tuples and numbers in that of their values */
1? RELATION { STATUS INTEGER, S# CHAR, CITY CHAR } { } { STATU }
1? RELATION { STATUS INTEGER, S# CHAR } { }
1? RELATION { TUPLE { STATUS 20, S# 'S1' } }
1? RELATION { TUPLE { STATUS 10, S# 'S2' }, TUPLE { STATUS 20, S# 'S1' } }
1? TUPLE { STATUS 10, S# 'S2' } = TUPLE { STATUS 20, S# 'S1' }
1? WITH TUPLE { STATUS 20, S# 'S1' } AS T : T = T
1? RELATION { TUPLE { A 0 }, TUPLE { A -1 } }
1? -1 < 0
1? -1 = 0
.quit

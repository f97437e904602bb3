TYPE WEIGHT POSSREP {N INTEGER};
// = and <> take two values of any one type.
WRITE TRUE <> FALSE;
WRITE WEIGHT(5) = WEIGHT(5);
WRITE TUPLE {A 1, B 2} = TUPLE {B 2, A 1};
WRITE 1 = 'a';
// < and its kin take numbers, texts and relations, and nothing else.
WRITE 'Hull' < 'York';
WRITE RELATION {TUPLE {A 1}} < RELATION {TUPLE {A 1}, TUPLE {A 2}};
WRITE FALSE < TRUE;
WRITE WEIGHT(5) < WEIGHT(6);
WRITE TUPLE {A 1} < TUPLE {A 2};
// The branches of IF are of one type.
WRITE IF 1 < 2 THEN 'less' ELSE 0 END IF;
WRITE IS_EMPTY(TABLE_DUM);
WRITE IS_EMPTY(TABLE_DEE);

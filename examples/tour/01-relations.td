// How a relation is written doesn't count: neither order, nor that a tuple stands there twice.
WRITE RELATION {TUPLE {SNO 'S2', CITY 'York'}, TUPLE {CITY 'Leeds', SNO 'S1'},
    TUPLE {SNO 'S2', CITY 'York'}};
WRITE RELATION {SNO CHAR, CITY CHAR} {};
WRITE RELATION {TUPLE {SNO 'S1', CITY 'Leeds'}} = RELATION {TUPLE {CITY 'Leeds', SNO 'S1'}};
WRITE TUPLE {SNO 'S2'} IN RELATION {TUPLE {SNO 'S1'}, TUPLE {SNO 'S2'}};
// A tuple without a city is no tuple of this heading.
WRITE RELATION {TUPLE {SNO 'S1', CITY 'Leeds'}, TUPLE {SNO 'S5'}};
// The two relations that have no attribute.
WRITE TABLE_DEE;
WRITE TABLE_DUM;
// The three types that need no definition: INTEGER, CHAR and BOOLEAN.
WRITE -7 / 2;
WRITE 'it''s' || ' a text';
WRITE 'Hull' < 'Leeds';

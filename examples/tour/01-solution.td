// One relation, however often a tuple was written.
WRITE RELATION {TUPLE {SNO 'S1'}, TUPLE {SNO 'S1'}} = RELATION {TUPLE {SNO 'S1'}};
// Of one heading there is one relation without a tuple.
WRITE RELATION {SNO CHAR} {} = RELATION {SNO CHAR} {};
// Relations of two headings are of two types, and are not compared.
WRITE RELATION {SNO CHAR} {} = RELATION {PNO CHAR} {};

VAR S BASE RELATION {SNO CHAR, SNAME CHAR, CITY CHAR} INIT (RELATION {
    TUPLE {SNO 'S1', SNAME 'Ames', CITY 'Leeds'}, TUPLE {SNO 'S2', SNAME 'Bray', CITY 'York'},
    TUPLE {SNO 'S3', SNAME 'Cole', CITY 'Leeds'}, TUPLE {SNO 'S4', SNAME 'Dunn', CITY 'Hull'}
}) KEY {SNO};

WRITE S WHERE CITY = 'York';
WRITE S {CITY};
WRITE COUNT(S {CITY});
WRITE (S WHERE CITY = 'Leeds' AND NOT SNO = 'S1') {ALL BUT CITY};
// The projection on SNO has no city any more.
WRITE S {SNO} WHERE CITY = 'Leeds';
// Braces bind tighter than WHERE: here they would project a text.
WRITE S WHERE CITY = 'Leeds' {SNO};
// Is there a supplier in Bath? Without attributes, a relation says yes or no.
WRITE (S WHERE CITY = 'Bath') {} = TABLE_DEE;

VAR S BASE RELATION {SNO CHAR, SNAME CHAR, CITY CHAR} INIT (RELATION {
    TUPLE {SNO 'S1', SNAME 'Ames', CITY 'Leeds'}, TUPLE {SNO 'S2', SNAME 'Bray', CITY 'York'},
    TUPLE {SNO 'S3', SNAME 'Cole', CITY 'Leeds'}, TUPLE {SNO 'S4', SNAME 'Dunn', CITY 'Hull'}
}) KEY {SNO};
// S twice, with two names for the number and one for the city. A < B leaves one tuple of each pair.
WRITE S {SNO, CITY} RENAME (SNO AS A) JOIN S {SNO, CITY} RENAME (SNO AS B) WHERE A < B;

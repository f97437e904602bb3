VAR S BASE RELATION {SNO CHAR, SNAME CHAR, CITY CHAR} INIT (RELATION {
    TUPLE {SNO 'S1', SNAME 'Ames', CITY 'Leeds'},
    TUPLE {SNO 'S2', SNAME 'Bray', CITY 'York'},
    TUPLE {SNO 'S3', SNAME 'Cole', CITY 'Leeds'}
    TUPLE {SNO 'S4', SNAME 'Dunn', CITY 'Hull'},
    TUPLE {SNO 'S5', SNAME 'Eyre', CITY 'Bath'}
}) KEY {SNO};
WRITE S WHERE CITY = 'Leeds';

// Values and causes of EXTEND with settings.
TYPE QTY POSSREP {Q INTEGER CONSTRAINT Q >= 0};
// with no value for 0
TYPE INVERSE POSSREP {N INTEGER CONSTRAINT 1 / N > 0};
// with the selector of another type
TYPE PART POSSREP {P INTEGER CONSTRAINT THE_Q(QTY(P)) < 10};
VAR R BASE RELATION {A INTEGER, B INTEGER} INIT (RELATION {TUPLE {A 1, B 2}, TUPLE {A 1, B 3}, TUPLE {A 2, B 2}}) KEY {A, B};
VAR S BASE RELATION {QTY INTEGER, SNO INTEGER} INIT (RELATION {TUPLE {SNO 1, QTY 0}, TUPLE {SNO 3, QTY 5}}) KEY {SNO};
// with an attribute of its own name
VAR E BASE RELATION {E INTEGER} INIT (RELATION {TUPLE {E 1}, TUPLE {E 2}}) KEY {E};

// attributes that are added, and those that are replaced
WRITE EXTEND R : {C := A + B};
WRITE EXTEND R : {B := 0};
WRITE EXTEND R : {A := B, B := A};
WRITE EXTEND E : {E := E};
WRITE EXTEND TABLE_DEE : {A := 1};
WRITE EXTEND TABLE_DUM : {A := 1};
WRITE EXTEND S : {SNO := COUNT(R), QTY := COUNT(S)};
// as by ADD where all names are new
WRITE EXTEND R : {C := A + B, D := R} = EXTEND R ADD (A + B AS C, R AS D);
// types that change, also where there is no tuple
WRITE EXTEND R : {A := 'x'};
WRITE EXTEND R WHERE FALSE : {A := 'x'};
WRITE EXTEND E : {E := QTY(E)};
WRITE EXTEND R : {B := TUPLE {A A, B B}} {B};
// every setting sees the operand's attributes
WRITE EXTEND E : {E := 'n', N := E + 1};
WRITE EXTEND EXTEND E : {F := E * 10} : {E := F, F := E};
WRITE EXTEND E : {X := EXTEND R WHERE A = E : {A := E} {A}};
// what is not replaced any more
WRITE SUM(EXTEND R : {A := 10}, A + B);

// causes
WRITE EXTEND S : {QTY := 10 / QTY};
WRITE EXTEND S : {QTY := 10 / QTY} {SNO};
WRITE (EXTEND S : {QTY := 10 / QTY}) WHERE SNO = 3;
WRITE EXTEND S WHERE SNO = 3 : {QTY := 10 / QTY};
WRITE EXTEND S WHERE FALSE : {QTY := 1 / 0};
WRITE EXTEND E : {E := 1 / (E - 2), F := E + 9223372036854775807};
WRITE EXTEND E : {E := QTY(1 - E)};
WRITE EXTEND R WHERE 1 / (A - 1) = 1 : {A := 9223372036854775807 + 1};
WRITE EXTEND E : {F := R D_UNION R};
WRITE EXTEND E : {F := R I_MINUS RELATION {TUPLE {A 9, B 9}}};
WRITE EXTEND E WHERE FALSE : {F := R D_UNION R};

// Causes in tuples: one tuple without a value leaves the whole without one.
TYPE QTY POSSREP {Q INTEGER CONSTRAINT Q >= 0};
// with no value for 0
TYPE INVERSE POSSREP {N INTEGER CONSTRAINT 1 / N > 0};
// with the selector of another type
TYPE PART POSSREP {P INTEGER CONSTRAINT THE_Q(QTY(P)) < 10};
VAR R BASE RELATION {A INTEGER, B INTEGER} INIT (RELATION {TUPLE {A 1, B 2}, TUPLE {A 1, B 3}, TUPLE {A 2, B 2}}) KEY {A, B};
VAR S BASE RELATION {QTY INTEGER, SNO INTEGER} INIT (RELATION {TUPLE {SNO 1, QTY 0}, TUPLE {SNO 3, QTY 5}}) KEY {SNO};
// with an attribute of its own name
VAR E BASE RELATION {E INTEGER} INIT (RELATION {TUPLE {E 1}, TUPLE {E 2}}) KEY {E};

// without that tuple there is a value
WRITE (R WHERE B = 2) WHERE B + 9223372036854775805 > 0;
WRITE (S WHERE SNO = 3) WHERE 10 / QTY > 1;
WRITE (E WHERE E = 2) WHERE (B FROM TUPLE FROM (R WHERE A = E)) = 2;
WRITE (E WHERE E = 1) WHERE QTY(1 - E) = QTY(0);
WRITE (E WHERE FALSE) WHERE 1 / 0 = 1;

// with it there is none
WRITE R WHERE B + 9223372036854775805 > 0;
WRITE S WHERE SNO = 3 AND 10 / QTY > 1;
WRITE E WHERE (B FROM TUPLE FROM (R WHERE A = E)) = 2;
WRITE E WHERE QTY(1 - E) = QTY(0);
WRITE EXTEND S ADD (10 / QTY AS X);
// of several tuples the least cause, and not the first
WRITE E WHERE IF E = 1 THEN 1 / 0 = 1 ELSE E + 9223372036854775807 > 0 END IF;
WRITE EXTEND E ADD (IF E = 1 THEN 1 / 0 ELSE E + 9223372036854775807 END IF AS X);
// of several items and of both operands too
WRITE EXTEND E ADD (QTY(0 - E) AS Q, 1 / (E - 2) AS N);
WRITE (S WHERE 10 / QTY > 1) JOIN (R WHERE B + 9223372036854775805 > 0);
WRITE (E WHERE QTY(1 - E) = QTY(0)) = (E WHERE 1 / (E - 1) = 1);
// the condition is not asked where the operand has no value
WRITE (E WHERE QTY(1 - E) = QTY(0)) WHERE 1 / 0 = 1;

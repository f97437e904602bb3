// What a name stands for where tuples are in hand.
TYPE QTY POSSREP {Q INTEGER CONSTRAINT Q >= 0};
// with no value for 0
TYPE INVERSE POSSREP {N INTEGER CONSTRAINT 1 / N > 0};
// with the selector of another type
TYPE PART POSSREP {P INTEGER CONSTRAINT THE_Q(QTY(P)) < 10};
VAR R BASE RELATION {A INTEGER, B INTEGER} INIT (RELATION {TUPLE {A 1, B 2}, TUPLE {A 1, B 3}, TUPLE {A 2, B 2}}) KEY {A, B};
VAR S BASE RELATION {QTY INTEGER, SNO INTEGER} INIT (RELATION {TUPLE {SNO 1, QTY 0}, TUPLE {SNO 3, QTY 5}}) KEY {SNO};
// with an attribute of its own name
VAR E BASE RELATION {E INTEGER} INIT (RELATION {TUPLE {E 1}, TUPLE {E 2}}) KEY {E};

// names
// an attribute hides the relvar of its name, in the operand's tuples alone
WRITE E WHERE E = COUNT(R) - 1;
// an outer attribute is known inside
WRITE R WHERE COUNT(E WHERE E + 1 = A) = 1;
// an inner attribute hides an outer one
WRITE R WHERE COUNT(RELATION {TUPLE {A 2}} WHERE A = 2) = A;
WRITE EXTEND E ADD (COUNT(RELATION {TUPLE {E 7}} WHERE E = 7) AS N);
// what is added is not known beside it: here the relvar is, and there the outer attribute
WRITE EXTEND E ADD (7 AS R, COUNT(R) AS N);
WRITE RELATION {TUPLE {X 7}} WHERE COUNT(EXTEND E ADD (1 AS X, X AS Y) WHERE Y = 7 AND X = 1) = 2;
// a component hides nothing outside of its type's condition
WRITE RELATION {TUPLE {Q 5}} WHERE THE_Q(QTY(Q - 4)) = 1;
// a type's condition is asked of the component, and not of the attribute of its name
WRITE RELATION {TUPLE {Q 5}} WHERE THE_Q(QTY(0 - Q)) = 1;

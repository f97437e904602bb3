// What a name stands for, by the types of columns that EXTEND adds to no tuple, and by the causes of what has no type.
TYPE QTY POSSREP {C INTEGER};
TYPE PAIR POSSREP {X INTEGER, Y CHAR};
VAR R BASE RELATION {A INTEGER, B INTEGER} KEY {A, B};
VAR S BASE RELATION {B INTEGER, C CHAR} KEY {B, C};
VAR D BASE RELATION {A CHAR, B INTEGER} KEY {A, B};
VAR E BASE RELATION {E INTEGER} KEY {E};
VAR N BASE RELATION {A INTEGER, X RELATION {B INTEGER}, T TUPLE {C CHAR}} KEY {A};
VAR Q BASE RELATION {Q QTY, P PAIR} KEY {Q, P};
VAR V VIRTUAL (R);
CONSTRAINT C TRUE;

// names in expressions
WRITE EXTEND TABLE_DUM ADD (R AS X);
WRITE EXTEND TABLE_DUM ADD (V AS X);
WRITE EXTEND TABLE_DUM ADD ((S) AS X);
// an attribute hides the relvar of its name
WRITE EXTEND TABLE_DUM ADD (E WHERE E = 1 AS X);
WRITE EXTEND TABLE_DUM ADD (EXTEND E ADD (E AS F) AS X);
// what is not hidden is known inside
WRITE EXTEND TABLE_DUM ADD (R WHERE COUNT(E WHERE E = A) = COUNT(S) AS X);
// an inner attribute hides an outer one
WRITE EXTEND TABLE_DUM ADD (R WHERE A = COUNT(D WHERE A = 'a') AS X);
WRITE EXTEND TABLE_DUM ADD (SUM(R, SUM(D, COUNT(R WHERE A = B) + B)) AS X);
WRITE EXTEND TABLE_DUM ADD (R WHERE COUNT(D WHERE A = 'a' AND COUNT(R WHERE A = 1) = 1) = 1 AS X);
WRITE Z;
WRITE r;
// neither a type nor a constraint is a relvar
WRITE QTY;
WRITE C;
// what an attribute hides
WRITE E = 1;
WRITE E WHERE COUNT(E) = 1;
WRITE R WHERE COUNT(D WHERE A = 1) = 1;
// an operand's attributes are known in its tuples alone
WRITE COUNT(R WHERE A = 1) + A;
WRITE SUM(R, A) + A;
WRITE R {A} JOIN (E WHERE E = A);
WRITE (R WHERE A = 1) WHERE COUNT(E WHERE C = 'a') = 1;
WRITE R WHERE COUNT(E WHERE E = 1) = E;
WRITE A FROM TUPLE {A B};
WRITE EXTEND R WHERE X = 1 ADD (1 AS X);
WRITE SUMMARIZE R PER (RELATION {TUPLE {A B}}) ADD (COUNT() AS N);
// what is added is not known beside it
WRITE EXTEND R ADD (1 AS X, X AS Y);
WRITE SUMMARIZE R BY {A} ADD (COUNT() AS X, SUM(X) AS Y);
// the new names of other operators are not known in the operand
WRITE (R WHERE X = 1) RENAME (A AS X);
WRITE (R RENAME (A AS X)) WHERE A = 1;
WRITE (R {A}) WHERE B = 1;
WRITE R GROUP ({A} AS X) WHERE A = 1;

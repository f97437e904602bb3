VAR SP BASE RELATION {SNO CHAR, QTY INTEGER} INIT (RELATION {
    TUPLE {SNO 'S1', QTY 200}, TUPLE {SNO 'S2', QTY 300}, TUPLE {SNO 'S3', QTY 100}}) KEY {SNO};
WRITE WITH (BIG := SP WHERE QTY > 100, MANY := COUNT(BIG)) : EXTEND BIG ADD (MANY AS N);
// A name is known in the items that follow, not in its own.
WRITE WITH (X := 5, Y := X + 1) : X * Y;
WRITE WITH (X := X) : 1;
WRITE WITH (X := 1) : WITH (X := X + 1) : X;
// A name twice, among items that have types; what follows is not looked at.
WRITE WITH (X := 1, X := 2) : NOPE;
WRITE WITH (X := 1, X := 2, Y := NOPE) : 1;
WRITE WITH (X := NOPE, X := 1) : 1;
WRITE WITH (X := 1, X := NOPE) : 1;
WRITE WITH (X := 1, Y := 'one' + X) : NOPE;
// The first item that is refused decides, also where nothing names it.
WRITE WITH (X := 1 / 0) : 2;
WRITE WITH (X := 9223372036854775807 + 1, Y := 1 / 0) : Y;
WRITE WITH (X := 1) : X / 0;
// It hides relvars and the attributes further out; an attribute further in hides it.
WRITE WITH (SP := RELATION {TUPLE {QTY 7}}) : SP;
WRITE EXTEND SP ADD ((WITH (QTY := 1) : QTY) AS ONE);
WRITE WITH (QTY := 100) : SP WHERE QTY = 300;
WRITE SP WHERE SNO = 'S1' AND (WITH (X := 1) : IS_EMPTY(SP WHERE X = QTY));
// It begins a whole expression.
WRITE SP WHERE (WITH (HALF := QTY / 2) : HALF * 2 = QTY AND HALF > 100);
WRITE SP WHERE WITH (HALF := QTY / 2) : HALF > 100;
WRITE (WITH (X := 2) : X + 1) + (WITH (X := 3) : X);
WRITE 1 + WITH (X := 2) : X;
WRITE EXTEND WITH (X := SP) : X : {QTY := QTY + 1};
WRITE EXTEND SP : {QTY := WITH (Q := QTY, R := Q + 1) : Q * R};
WRITE SUMMARIZE SP BY {} ADD (SUM(WITH (Q := QTY) : Q * 2) AS TOTAL);
WRITE SUM(SP, WITH (Q := QTY) : Q - 100);
WRITE WITH () : 1;
WRITE WITH (X = 1) : X;
WRITE WITH (X := 1) X;
// In definitions: what is hidden is not mentioned, and a definition sees no name of where it is used.
TYPE EVEN POSSREP {N INTEGER CONSTRAINT WITH (HALF := N / 2) : HALF * 2 = N};
WRITE WITH (N := 2) : EVEN(3);
VAR V VIRTUAL (WITH (BIG := SP WHERE QTY > 100) : BIG {SNO}) KEY {SNO};
WRITE WITH (SP := RELATION {SNO CHAR, QTY INTEGER} {}) : V;
CONSTRAINT SMALL WITH (TOTAL := SUM(SP, QTY)) : TOTAL < 1000;
CONSTRAINT APART WITH (T := RELATION {TUPLE {A 1}}, V := T) : COUNT(V) = 1;
INSERT SP RELATION {TUPLE {SNO 'S4', QTY 900}};
VAR T BASE RELATION {SNO CHAR} INIT (WITH (BIG := SP WHERE QTY > 100) : BIG {SNO}) KEY {SNO};
UPDATE SP WHERE (WITH (Q := QTY) : Q < 300) : {QTY := WITH (Q := QTY) : Q + 1};
DELETE SP WHERE (WITH (T := 'S2') : SNO = T);
SP := WITH (OLD := SP) : OLD UNION RELATION {TUPLE {SNO 'S5', QTY 5}};
WRITE SP;
DROP CONSTRAINT SMALL;
DROP VAR V;
DUMP;

// EXTEND and UPDATE with their settings in braces, and RENAME, GROUP and WRAP in their newer spelling.
TYPE QTY POSSREP {C INTEGER};
TYPE PAIR POSSREP {X INTEGER, Y CHAR};
VAR R BASE RELATION {A INTEGER, B INTEGER} KEY {A, B};
VAR S BASE RELATION {B INTEGER, C CHAR} KEY {B, C};
VAR D BASE RELATION {A CHAR, B INTEGER} KEY {A, B};
VAR E BASE RELATION {E INTEGER} KEY {E};
VAR N BASE RELATION {A INTEGER, X RELATION {B INTEGER}, T TUPLE {C CHAR}} KEY {A};
VAR Q BASE RELATION {Q QTY, P PAIR} KEY {Q, P};
VAR V VIRTUAL (R);
CONSTRAINT C TRUE;

// headings
WRITE EXTEND TABLE_DUM ADD (EXTEND R : {C := 'x'} AS X);
WRITE EXTEND TABLE_DUM ADD (EXTEND R : {A := 'x'} AS X);
WRITE EXTEND TABLE_DUM ADD (EXTEND R : {A := R, B := TRUE, Z := QTY(A)} AS X);
WRITE EXTEND TABLE_DUM : {X := EXTEND TABLE_DUM : {Y := 1}};
WRITE EXTEND TABLE_DUM ADD (EXTEND EXTEND R : {A := 'x'} : {B := A || 'y'} AS X);
WRITE EXTEND TABLE_DUM ADD (EXTEND R WHERE A = 1 : {A := TUPLE {A A}} AS X);
// of a relation alone, and settings are looked at only where there is one
WRITE EXTEND 1 : {A := 1};
WRITE EXTEND TUPLE {A 1} : {A := 2};
WRITE EXTEND 1 : {A := Z};
WRITE EXTEND R {Z} : {A := Z};
WRITE EXTEND NOPE : {A := 1 + TRUE};
// a name twice
WRITE EXTEND R : {A := 1, A := 2};
WRITE EXTEND R : {C := 1, C := 'x'};
WRITE EXTEND R : {A := 1, B := 2, A := 1};
WRITE EXTEND 1 : {A := 1, A := 2};
// is asked only where each setting has a type
WRITE EXTEND R : {A := Z};
WRITE EXTEND R : {A := 1, A := Z};
WRITE EXTEND R : {A := 1, A := 1 + TRUE};
WRITE EXTEND R : {A := R {Z}, B := 1 + TRUE};
// no setting sees another
WRITE EXTEND R : {C := 1, X := C};
WRITE EXTEND R : {A := 'x', C := A || 'y'};
// what stands behind sees what was set
WRITE EXTEND R : {C := 1} WHERE C = 'x';
WRITE (EXTEND R : {A := 'x'}) WHERE A = 1;
WRITE EXTEND R : {A := 'x'} {C};
WRITE EXTEND R : {A := 'x'} = R;
// the older spelling replaces nothing
WRITE EXTEND R ADD (1 AS A);
WRITE EXTEND EXTEND R : {C := 1} ADD (1 AS C);

// UPDATE changes no type
UPDATE R WHERE A = 1 : {A := B, B := A}, UPDATE E : {E := 0};
UPDATE R : {A := 'x'};
UPDATE R : {Z := 1};
UPDATE R : {A := 1, A := 2};
UPDATE R : {A := 'x', Z := 1};
UPDATE R : {A := Z};
UPDATE R WHERE 1 : {A := 1};
UPDATE R WHERE Z : {A := TRUE};
UPDATE NOPE : {A := 1 + TRUE};
UPDATE V : {A := 1};
UPDATE V WHERE 1 : {A := 1};

// the rules of RENAME, GROUP and WRAP
WRITE EXTEND TABLE_DUM ADD (R RENAME {A AS B, B AS A} AS X);
WRITE R RENAME {Z AS X};
WRITE R RENAME {A AS X, A AS Y};
WRITE R RENAME {A AS B};
WRITE 1 RENAME {A AS B};
WRITE Z RENAME {A AS B};
WRITE EXTEND TABLE_DUM ADD (R GROUP {A} AS A AS X);
WRITE EXTEND TABLE_DUM ADD (R GROUP {} AS G AS X);
WRITE EXTEND TABLE_DUM ADD (R GROUP {ALL BUT} AS G AS X);
WRITE R GROUP {Z} AS X;
WRITE R GROUP {A} AS B;
WRITE R GROUP {A, A} AS X;
WRITE 1 GROUP {A} AS X;
WRITE EXTEND TABLE_DUM ADD (R WRAP {ALL BUT A} AS T AS X);
WRITE EXTEND TABLE_DUM ADD (R WRAP {} AS T AS X);
WRITE R WRAP {A, A} AS T;
WRITE R WRAP {A} AS B;
WRITE TUPLE {A 1} WRAP {A} AS T;

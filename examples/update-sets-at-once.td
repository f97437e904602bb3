// UPDATE puts all attributes at once, sees the relvar as the assignments before it leave it, and tuples that become one are one.
VAR R BASE RELATION {A INTEGER, B INTEGER}
    INIT (RELATION {TUPLE {A 1, B 10}, TUPLE {A 2, B 20}, TUPLE {A 3, B 30}}) KEY {A, B};
UPDATE R (A := B, B := A);
WRITE R;
UPDATE R WHERE B > 1 (A := MAX(R, A), B := COUNT(R));
WRITE R;
INSERT R RELATION {TUPLE {A 40, B 1}}, UPDATE R WHERE B = 1 (A := A + 1), DELETE R WHERE A > 40;
WRITE R;
UPDATE R WHERE A = 30 (A := 11, B := 1);
WRITE R;
UPDATE R WHERE FALSE (A := 1 / 0);
DELETE R WHERE FALSE;
WRITE COUNT(R);
DELETE R;
WRITE R;

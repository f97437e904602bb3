// DELETE and UPDATE whose condition fixes a key read their target by it: what they do is the same.
VAR S BASE RELATION {SNO INTEGER, QTY INTEGER} INIT (RELATION {
  TUPLE {SNO 1, QTY 0}, TUPLE {SNO 2, QTY 4}, TUPLE {SNO 3, QTY 5}, TUPLE {SNO 4, QTY 9}}) KEY {SNO};
VAR V VIRTUAL (S WHERE QTY > 4);
// A tuple that is found, one that is not, and one that a further conjunct leaves out.
DELETE S WHERE SNO = 1;
WRITE S;
DELETE S WHERE SNO = 1;
UPDATE S WHERE 9 = SNO (QTY := 1);
DELETE S WHERE SNO = 3 AND QTY > 5;
UPDATE S WHERE SNO = 3 AND QTY > 4 (QTY := QTY + 1);
WRITE S;
// Settings see the relvar, and a virtual relvar, as before; all are put at once.
UPDATE S WHERE SNO = 3 (SNO := QTY, QTY := SNO + COUNT(S) + COUNT(V) + MAX(S, QTY));
WRITE S;
UPDATE S (QTY := QTY + COUNT(V));
WRITE S;
// A setting that has no value counts only in the tuples that are chosen.
INSERT S RELATION {TUPLE {SNO 5, QTY 0}};
UPDATE S WHERE SNO = 5 (QTY := 12 / QTY);
UPDATE S WHERE SNO = 2 (QTY := 12 / QTY);
UPDATE S WHERE SNO = 9 (QTY := 1 / 0);
UPDATE S WHERE SNO = 2 (QTY := 1 / 0);
WRITE S;
// A condition that may have no value is asked of all tuples.
DELETE S WHERE SNO = 2 AND 12 / QTY > 1;
UPDATE S WHERE SNO = 2 AND 12 / QTY > 1 (QTY := 3);
DELETE S WHERE SNO = 1 / 0;
WRITE S;
// A key that is changed, to one that is there and to one that is not.
UPDATE S WHERE SNO = 2 (SNO := 4);
UPDATE S WHERE SNO = 2 (SNO := 7);
WRITE S;
// Several assignments to one target: the later ones see what the earlier ones gave.
DELETE S WHERE SNO = 7, UPDATE S WHERE SNO = 7 (QTY := 1 / 0), UPDATE S WHERE SNO = 4 (SNO := 7), DELETE S WHERE SNO = 5;
WRITE S;
UPDATE S WHERE SNO = 7 (QTY := QTY + COUNT(S)), UPDATE S WHERE SNO = 7 (QTY := QTY + COUNT(V)), INSERT S RELATION {TUPLE {SNO 8, QTY 8}};
WRITE S;
// A key of two attributes, and another key.
TYPE SMALL POSSREP {N INTEGER CONSTRAINT N < 10};
VAR P BASE RELATION {A INTEGER, B CHAR, C SMALL} INIT (RELATION {
  TUPLE {A 1, B 'x', C SMALL(7)}, TUPLE {A 1, B 'y', C SMALL(8)}, TUPLE {A 2, B 'x', C SMALL(9)}}) KEY {B, A} KEY {C};
DELETE P WHERE A = 2 AND B = 'y';
DELETE P WHERE A = 1 AND B = 'y';
WRITE P;
UPDATE P WHERE C = SMALL(9) (B := 'y');
UPDATE P WHERE B = 'x' (C := SMALL(THE_N(C) + 1));
WRITE P;
UPDATE P WHERE A = 2 AND B = 'y' (C := SMALL(THE_N(C) + 1));
UPDATE P WHERE A = 2 AND B = 'y' (C := SMALL(8));
DELETE P WHERE C = SMALL(10);
WRITE P;

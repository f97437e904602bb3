// A type with a constraint, a relvar of it, a virtual relvar and a constraint, and what they hold as the relvar changes.
TYPE QTY POSSREP {Q INTEGER CONSTRAINT Q >= 0};
VAR P BASE RELATION {Q QTY, N CHAR} KEY {N};
INSERT P RELATION {TUPLE {N 'it''s', Q QTY(3)}};
VAR V VIRTUAL (P {N});
CONSTRAINT C COUNT(P) < 3;
WRITE P;
WRITE V;
INSERT P RELATION {TUPLE {N 'b', Q QTY(0)}};
WRITE V;
INSERT P RELATION {TUPLE {N 'c', Q QTY(1)}};
INSERT P RELATION {TUPLE {N 'b', Q QTY(0)}};
DELETE P WHERE THE_Q(Q) = 0;
UPDATE P (Q := QTY(THE_Q(Q) * 2));
WRITE P;
WRITE V;

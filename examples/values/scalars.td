// Values of scalar expressions.
TYPE QTY POSSREP {Q INTEGER CONSTRAINT Q >= 0};
// with no value for 0
TYPE INVERSE POSSREP {N INTEGER CONSTRAINT 1 / N > 0};
// with the selector of another type
TYPE PART POSSREP {P INTEGER CONSTRAINT THE_Q(QTY(P)) < 10};
VAR R BASE RELATION {A INTEGER, B INTEGER} INIT (RELATION {TUPLE {A 1, B 2}, TUPLE {A 1, B 3}, TUPLE {A 2, B 2}}) KEY {A, B};
VAR S BASE RELATION {QTY INTEGER, SNO INTEGER} INIT (RELATION {TUPLE {SNO 1, QTY 0}, TUPLE {SNO 3, QTY 5}}) KEY {SNO};
// with an attribute of its own name
VAR E BASE RELATION {E INTEGER} INIT (RELATION {TUPLE {E 1}, TUPLE {E 2}}) KEY {E};

// numbers
WRITE -9223372036854775808;
WRITE -0;
WRITE 1 + 1;
WRITE 2 + 3 * 4 - 5;
WRITE -9223372036854775808 + 9223372036854775807;
// a quotient is cut off toward zero
WRITE -7 / 2;
WRITE 7 / -2;
WRITE -7 / -2;
WRITE -(7) / 2;
WRITE -(-9223372036854775808);
WRITE 9223372036854775807 + 1;
WRITE -9223372036854775808 - 1;
WRITE 9223372036854775807 * 2;
WRITE -9223372036854775808 / -1;
WRITE 0 / 0;
// of several causes the least, wherever it stands
WRITE 1 / 0 + (9223372036854775807 + 1);
WRITE 9223372036854775807 + 1 + 1 / 0;
WRITE THE_Q(QTY(-1)) + 1 / 0;

// truth values
WRITE NOT TRUE OR TRUE AND FALSE;
WRITE TRUE OR FALSE AND FALSE;
WRITE 1 < 2 AND 2 >= 2 AND 1 <> 2;
WRITE -1 > 0 OR 2 <= 1;
WRITE TRUE = FALSE;
// texts compare by their bytes, and not by their lengths
WRITE 'b' < 'ab';
WRITE 'B' < 'a';
WRITE 'a' < 'aa' AND '' <= '';
WRITE 'a' || 'b' = 'ab';
WRITE QTY(1 + 1) = QTY(2);
WRITE QTY(1) <> QTY(1);
WRITE TUPLE {A 1, B 2} = TUPLE {B 2, A 1};
// both sides count
WRITE FALSE AND 1 / 0 = 1;
WRITE 1 / 0 = 1 AND FALSE;
WRITE TRUE OR 1 / 0 = 1;
WRITE NOT 1 / 0 = 1;

// texts, choices and selectors
WRITE 'a' || 'b';
WRITE 'it' || '''' || 's';
// the branch that is not chosen does not count
WRITE IF TRUE THEN 1 ELSE 1 / 0 END IF;
WRITE IF 1 = 2 THEN 1 / 0 ELSE 2 END IF;
WRITE THE_Q(QTY(3));
WRITE QTY(0);
WRITE INVERSE(1);
WRITE PART(9);
WRITE IF 1 / 0 = 1 THEN 1 ELSE 2 END IF;
WRITE IF FALSE THEN 1 ELSE 1 / 0 END IF;
WRITE QTY(-1);
WRITE INVERSE(0);
WRITE PART(10);
// by the condition of the other type
WRITE PART(-1);
WRITE THE_Q(QTY(1 / 0));

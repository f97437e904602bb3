// Values of groups, closures, aggregates and summaries.
TYPE QTY POSSREP {Q INTEGER CONSTRAINT Q >= 0};
// with no value for 0
TYPE INVERSE POSSREP {N INTEGER CONSTRAINT 1 / N > 0};
// with the selector of another type
TYPE PART POSSREP {P INTEGER CONSTRAINT THE_Q(QTY(P)) < 10};
VAR R BASE RELATION {A INTEGER, B INTEGER} INIT (RELATION {TUPLE {A 1, B 2}, TUPLE {A 1, B 3}, TUPLE {A 2, B 2}}) KEY {A, B};
VAR S BASE RELATION {QTY INTEGER, SNO INTEGER} INIT (RELATION {TUPLE {SNO 1, QTY 0}, TUPLE {SNO 3, QTY 5}}) KEY {SNO};
// with an attribute of its own name
VAR E BASE RELATION {E INTEGER} INIT (RELATION {TUPLE {E 1}, TUPLE {E 2}}) KEY {E};

// groups and wraps
WRITE R GROUP ({B} AS G);
WRITE E GROUP ({} AS G);
WRITE E GROUP ({E} AS G);
WRITE R WRAP ({B} AS W);
// there is no group of no tuple
WRITE (E WHERE E > 2) GROUP ({E} AS G);

// groups and wraps undone
// with no tuple for an empty relation
WRITE RELATION {TUPLE {K 1, X RELATION {A INTEGER} {}}, TUPLE {K 2, X RELATION {TUPLE {A 7}}}} UNGROUP (X);
// what is inside may have the attribute's name, and a tuple may come from two
WRITE RELATION {TUPLE {X RELATION {TUPLE {X 1}, TUPLE {X 2}}}, TUPLE {X RELATION {TUPLE {X 2}}}} UNGROUP (X);
WRITE R = R GROUP ({B} AS X) UNGROUP (X);
WRITE R WRAP ({B} AS X) UNWRAP (X);

// closures
// in a circle each leads to itself
WRITE TCLOSE RELATION {TUPLE {X 1, Y 2}, TUPLE {X 2, Y 1}};
WRITE TCLOSE RELATION {TUPLE {Y 2, X 1}};
WRITE COUNT(TCLOSE RELATION {TUPLE {X 1, Y 2}, TUPLE {X 2, Y 3}, TUPLE {X 3, Y 4}});
WRITE TCLOSE RELATION {X INTEGER, Y INTEGER} {};
WRITE TCLOSE RELATION {TUPLE {X 'a', Y 'b'}, TUPLE {X 'b', Y 'c'}};
WRITE TCLOSE RELATION {TUPLE {X TUPLE {N 1}, Y TUPLE {N 2}}, TUPLE {X TUPLE {N 2}, Y TUPLE {N 1}}} WHERE X = Y;

// aggregates
// equal values count as often as they come
WRITE SUM(R, B);
WRITE SUM(E WHERE E > 2, E);
// where a part of the sum is out of range
WRITE SUM(RELATION {TUPLE {K 1, V 9223372036854775807}, TUPLE {K 2, V 1}, TUPLE {K 3, V -2}}, V);
WRITE MAX(R, A * 10 + B);
WRITE MIN(S, QTY);
WRITE MAX(RELATION {TUPLE {C 'ab'}, TUPLE {C 'b'}}, C);
WRITE MAX(E WHERE E > 2, E);
WRITE MIN(R WHERE A > 5, B);
WRITE SUM(RELATION {TUPLE {V 9223372036854775807}, TUPLE {V 1}}, V);
WRITE SUM(S, 10 / QTY);

// summaries
WRITE SUMMARIZE R BY {A} ADD (SUM(B) AS T, COUNT() AS N);
// a tuple of PER without a partner
WRITE SUMMARIZE R PER (RELATION {TUPLE {A 1}, TUPLE {A 9}}) ADD (COUNT() AS N);
WRITE SUMMARIZE R PER (RELATION {TUPLE {A 9}}) ADD (MAX(B) AS M);
// what an item is refused for counts alone
WRITE SUMMARIZE S PER (RELATION {TUPLE {SNO 1}, TUPLE {SNO 9}}) ADD (MAX(10 / QTY) AS M);
// a cause of an item stands before what the aggregates of another group come to
WRITE SUMMARIZE RELATION {TUPLE {G 1, N 9223372036854775807}, TUPLE {G 1, N 1}, TUPLE {G 2, N 0}}
    BY {G} ADD (SUM(N) AS S, MAX(1 / N) AS M);
// a tuple that is in no group is asked for nothing
WRITE SUMMARIZE S PER (RELATION {TUPLE {SNO 3}}) ADD (MAX(10 / QTY) AS M);

// a tuple without attributes in each tuple
WRITE R WRAP ({} AS T);

// texts by their bytes
WRITE MIN(RELATION {TUPLE {C 'ab'}, TUPLE {C 'b'}, TUPLE {C 'B'}}, C);

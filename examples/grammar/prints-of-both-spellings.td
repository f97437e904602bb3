// Of a form that has two spellings the one that was written is printed.
TYPE T POSSREP {X RELATION {A INTEGER} CONSTRAINT COUNT(X rename{A as B})<9};
VAR R BASE RELATION {A INTEGER, B CHAR} KEY {A};
VAR V1 VIRTUAL (R rename (A as C,B as D));
VAR V2 VIRTUAL (R rename{A as C,B as D});
VAR V3 VIRTUAL (R group({A} as X)ungroup(X));
VAR V4 VIRTUAL (R group{A}as X ungroup(X));
VAR V5 VIRTUAL (R WRAP({all but A}AS T));
VAR V6 VIRTUAL (R WRAP{all but A}AS T);
VAR V7 VIRTUAL (extend R add(A+1 as C));
VAR V8 VIRTUAL (extend R:{C:=A+1}) KEY {A};
VAR V9 VIRTUAL (extend extend extend R:{A:='x'}add(A as C):{B:=1,C:=B});
CONSTRAINT C1 is_empty(R d_union R i_minus R);
CONSTRAINT C2 R group{}as X=R group({}as X);
DUMP;

// An expression is printed with one space between two tokens, reserved words in capitals and no 0 before a number.
TYPE T POSSREP {q INTEGER};
VAR P BASE RELATION {A INTEGER, B T, a INTEGER} KEY {A};
CONSTRAINT C COUNT(P)<10;
VAR V VIRTUAL (P WHERE a+007*-3 = 0);
VAR W VIRTUAL (P where not A=-5 or the_q(B)=1);
CONSTRAINT Z --0 = 0;
DUMP;

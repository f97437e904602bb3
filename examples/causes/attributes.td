VAR S BASE RELATION {SNO CHAR, CITY CHAR} INIT (RELATION {TUPLE {SNO 'S1', CITY 'York'}}) KEY {SNO};
// As an expression an unknown name is 3.
WRITE S WHERE TOWN = 'York';
WRITE EXTEND S ADD (TOWN AS HOME);
// As the name of an attribute of an operand it is 6, and in a key 7.
WRITE S {TOWN};
WRITE S RENAME (TOWN AS HOME);
WRITE S GROUP ({TOWN} AS TOWNS);
WRITE SUMMARIZE S BY {TOWN} ADD (COUNT() AS N);
WRITE TOWN FROM TUPLE FROM S;
UPDATE S (TOWN := 'York');
VAR T BASE RELATION {CITY CHAR} KEY {TOWN};
// One name of two types is 6.
WRITE S JOIN RELATION {TUPLE {CITY 5}};
WRITE S = RELATION {TUPLE {SNO 1, CITY 'York'}};
// But tuples of two headings, and any other values of two types, are 5.
WRITE TUPLE {A 1} = TUPLE {B 1};
WRITE 1 = 'a';

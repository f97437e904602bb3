// IN for tuples of one number: whether it is among the numbers of a relation.
VAR R BASE RELATION {K INTEGER, S CHAR} INIT (RELATION {
    TUPLE {K -9, S 'a'}, TUPLE {K -3, S 'b'}, TUPLE {K -1, S 'c'}, TUPLE {K 0, S 'd'},
    TUPLE {K 1, S 'e'}, TUPLE {K 2, S 'f'}, TUPLE {K 3, S 'g'}, TUPLE {K 4, S 'h'},
    TUPLE {K 5, S 'i'}, TUPLE {K 6, S 'j'}, TUPLE {K 7, S 'k'}, TUPLE {K 8, S 'l'},
    TUPLE {K 9, S 'm'}, TUPLE {K 10, S 'n'}, TUPLE {K 11, S 'o'}, TUPLE {K 12, S 'p'},
    TUPLE {K 13, S 'q'}, TUPLE {K 14, S 'r'}, TUPLE {K 3037000499, S 's'},
    TUPLE {K -3037000499, S 't'}
}) KEY {K};
VAR P BASE RELATION {K INTEGER, V INTEGER} INIT (RELATION {
    TUPLE {K 7, V 1}, TUPLE {K -3, V 2}, TUPLE {K 12, V 1}, TUPLE {K 100, V 3},
    TUPLE {K 3037000499, V 4}
}) KEY {K};
VAR T BASE RELATION {N CHAR} INIT (RELATION {TUPLE {N 'b'}, TUPLE {N 'q'}, TUPLE {N 'z'}}) KEY {N};
VAR NONE BASE RELATION {K INTEGER} KEY {K};

// found and not found, with negative numbers
WRITE R WHERE TUPLE {K K} IN P {K};
WRITE COUNT(R WHERE NOT (TUPLE {K K} IN P {K}));
WRITE R WHERE TUPLE {K K} IN RELATION {TUPLE {K -3037000499}, TUPLE {K 0}, TUPLE {K 9223372036854775807}};
// with the attribute of another name, renamed or given by an expression
WRITE (R WHERE TUPLE {V K} IN P {V}) {K};
WRITE (R WHERE TUPLE {K K - 7} IN P {K}) {K};
WRITE (R WHERE TUPLE {K K * K} IN (P RENAME {K AS OLD, V AS K}) {K}) {K};
// the same number in all tuples
WRITE COUNT(R WHERE TUPLE {K 7} IN P {K});
WRITE COUNT(R WHERE TUPLE {K 8} IN P {K});
// in no tuples
WRITE COUNT(R WHERE TUPLE {K K} IN NONE);
WRITE COUNT(NONE WHERE TUPLE {K K} IN P {K});
// within a larger condition, and beside another IN
WRITE (R WHERE K > 0 AND TUPLE {K K} IN P {K} OR S = 'a') {K};
WRITE (R WHERE TUPLE {K K} IN P {K} AND NOT (TUPLE {K K} IN (P WHERE V = 1) {K})) {K};
WRITE (EXTEND R: {IS_IN := TUPLE {K K} IN P {K}}) WHERE IS_IN;
WRITE (R WHERE COUNT(P WHERE TUPLE {K V} IN NONE) = 0 AND TUPLE {K K} IN P {K}) {K};
// with a relation that is another one in each tuple
WRITE ((R RENAME {K AS L}) WHERE TUPLE {V 1} IN (P WHERE K = L) {V}) {L};
WRITE (R WHERE TUPLE {K K} IN RELATION {TUPLE {K 5 - K}, TUPLE {K 4}}) {K};
// texts, and tuples of two attributes
WRITE (R WHERE TUPLE {N S} IN T) {K};
WRITE (R WHERE TUPLE {K K, V 1} IN P) {K};
// refused in one tuple: a zero divisor, and a number out of range
WRITE R WHERE TUPLE {K 10 / (K - 3)} IN P {K};
WRITE R WHERE TUPLE {K K * K * K} IN P {K};
WRITE R WHERE TUPLE {K 10 / (K - 3)} IN NONE;
WRITE (R WHERE K <> 3 AND TUPLE {K 10 / (K - 3)} IN P {K}) {K};
// of another name, and of another type
WRITE R WHERE TUPLE {K K} IN P {V};
WRITE R WHERE TUPLE {K S} IN P {K};
WRITE R WHERE TUPLE {N K} IN T;

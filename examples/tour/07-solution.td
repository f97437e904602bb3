VAR MM BASE RELATION {MAJOR CHAR, MINOR CHAR} INIT (RELATION {
    TUPLE {MAJOR 'Bicycle', MINOR 'Chain'}, TUPLE {MAJOR 'Bicycle', MINOR 'Wheel'},
    TUPLE {MAJOR 'Wheel', MINOR 'Spoke'}, TUPLE {MAJOR 'Spoke', MINOR 'Wire'}}) KEY {MAJOR, MINOR};
// All that is in the bicycle, without what has parts itself.
WRITE (TCLOSE MM WHERE MAJOR = 'Bicycle') {MINOR} MINUS MM {MAJOR} RENAME (MAJOR AS MINOR);

VAR MM BASE RELATION {MAJOR CHAR, MINOR CHAR} INIT (RELATION {
    TUPLE {MAJOR 'Bicycle', MINOR 'Chain'}, TUPLE {MAJOR 'Bicycle', MINOR 'Wheel'},
    TUPLE {MAJOR 'Wheel', MINOR 'Spoke'}, TUPLE {MAJOR 'Spoke', MINOR 'Wire'}}) KEY {MAJOR, MINOR};
WRITE COUNT(MM);
WRITE COUNT(TCLOSE MM);
// Which pair that begins with a wheel is in the closure alone?
WRITE TCLOSE MM MINUS MM WHERE MAJOR = 'Wheel';
// What is in a wheel, and what has wire in it?
WRITE (TCLOSE MM WHERE MAJOR = 'Wheel') {MINOR};
WRITE (TCLOSE MM WHERE MINOR = 'Wire') {MAJOR};
// A mistake: a wheel in the wire. Which parts are now in themselves?
INSERT MM RELATION {TUPLE {MAJOR 'Wire', MINOR 'Wheel'}};
WRITE (TCLOSE MM WHERE MAJOR = MINOR) {MAJOR};

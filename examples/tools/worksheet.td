// # Suppliers and parts
//
// Suppliers `S` have a number, a name and a city. A *relvar* is defined with its **candidate key**:
VAR S BASE RELATION {SNO CHAR, SNAME CHAR, CITY CHAR} INIT (RELATION {
    TUPLE {SNO 'S1', SNAME 'Ames', CITY 'Leeds'}, TUPLE {SNO 'S2', SNAME 'Bray', CITY 'York'},
    TUPLE {SNO 'S3', SNAME 'Cole', CITY 'Leeds'}}) KEY {SNO};
WRITE S;

// ## Restriction
//
// - `WHERE` keeps the tuples for which a condition is `TRUE`.
// - Braces project, and bind tighter than `WHERE`:
WRITE S WHERE CITY = 'Leeds' {SNO};
WRITE (S WHERE CITY = 'Leeds') {SNO}; // Parentheses help.

// Exercise 1. In which cities is there a supplier?
WRITE S {CITY};

// Exercise 2. How many suppliers has each city?
// Solution: with `SUMMARIZE`, or by a group of each city.
WRITE SUMMARIZE S BY {CITY} ADD (COUNT() AS N);
WRITE S GROUP ({SNO, SNAME} AS SUPPLIERS);

// What nobody may see is how it ends.

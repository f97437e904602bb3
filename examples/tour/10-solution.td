// The dump that the chapter's script ends with, and then a query. What DUMP prints is that dump.
VAR HOMES BASE RELATION {CITY CHAR} INIT (RELATION {CITY CHAR} {TUPLE {CITY 'York'}}) KEY {CITY};
VAR NORTH VIRTUAL (HOMES WHERE CITY <> 'Bath');
WRITE NORTH;
DUMP;

* minimise -x where x - y <= 2 and x >= 1: along (1, 1) nothing stops it
ROWS
 N cost
 L apart
COLUMNS
 x cost -1 apart 1
 y apart -1
RHS
 RHS apart 2
BOUNDS
 LO BND x 1
ENDATA

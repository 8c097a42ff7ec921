* Beale's program, on which the simplex method without a rule against cycles goes round for ever
ROWS
 N obj
 L r1
 L r2
 L r3
COLUMNS
 x1 obj -3/4 r1 1/4
 x1 r2 1/2
 x2 obj 20 r1 -8
 x2 r2 -12
 x3 obj -1/2 r1 -1
 x3 r2 -1/2 r3 1
 x4 obj 6 r1 9
 x4 r2 3
RHS
 RHS r3 1
ENDATA

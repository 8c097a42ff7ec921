* line 7 has 1.2.3, which is no number
ROWS
 N obj
 L r1
 G r2
COLUMNS
 x obj 1 r1 1.2.3
RHS
 RHS r1 1
ENDATA

* 2x - 2y = 1 with both whole: no point, and no end of branches, since neither has an upper bound
ROWS
 N obj
 E c
COLUMNS
 M 'MARKER' 'INTORG'
 x obj 1 c 2
 y c -2
RHS
 RHS c 1
ENDATA

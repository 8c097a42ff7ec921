* 2x = 1 and x is whole: the rows leave a point, the mark doesn't
ROWS
 N obj
 E c
COLUMNS
 M 'MARKER' 'INTORG'
 x obj 0 c 2
RHS
 RHS c 1
ENDATA

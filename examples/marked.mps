* minimise -x where 2x <= 3 and x is whole
ROWS
 N obj
 L c
COLUMNS
 M 'MARKER' 'INTORG'
 x obj -1 c 2
RHS
 RHS c 3
ENDATA

* x is whole, at most 1/2 and, by the row, at least -3/2; with --bases 1 a step is missing in a region behind two turns
ROWS
 N obj
 L c
COLUMNS
 M 'MARKER' 'INTORG'
 x obj 0 c -2
RHS
 RHS c 3
BOUNDS
 MI B x
 UP B x 1/2
ENDATA

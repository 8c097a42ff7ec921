* withheld-boxes.mps with bounds on both columns: few whole numbers are left, so the search ends
ROWS
 N obj
 E c
COLUMNS
 M 'MARKER' 'INTORG'
 x obj 1 c 2
 y c -2
RHS
 RHS c 1
BOUNDS
 UP B x 2
 UP B y 2
ENDATA

* x is at least 2 and at most 1
ROWS
 N obj
COLUMNS
 x obj 1
BOUNDS
 LO B x 2
 UP B x 1
ENDATA

* x is whole and lies from 1/5 to 4/5
ROWS
 N obj
COLUMNS
 M 'MARKER' 'INTORG'
 x obj 1
BOUNDS
 LO B x 0.2
 UP B x 4/5
ENDATA

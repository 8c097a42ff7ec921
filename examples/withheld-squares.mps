* the squares of Q need a product of two large numbers
ROWS
 N obj
COLUMNS
 x obj 0
 y obj 0
QUADOBJ
 x x 3
 x y 170141183460469231731687303715884105727
ENDATA

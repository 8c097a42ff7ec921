* minimise 4a^2 + 2b^2 + c^2 where a + b + c = 1 and 10a + 6b + 4c >= 7
ROWS
 N risk
 E budget
 G gain
COLUMNS
 a budget 1 gain 10
 b budget 1 gain 6
 c budget 1 gain 4
RHS
 RHS budget 1 gain 7
DMATRIX
 a a 4
 b b 2
 c c 1
ENDATA

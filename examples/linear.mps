* minimise -3x - 2y where x + y <= 4, x + 3y <= 6 and x <= 3
NAME linear
ROWS
 N cost
 L room
 L hours
COLUMNS
 x cost -3 room 1
 x hours 1
 y cost -2 room 1
 y hours 3
RHS
 RHS room 4 hours 6
BOUNDS
 UP BND x 3
ENDATA

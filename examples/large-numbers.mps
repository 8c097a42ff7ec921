* costs of 10^38 and more: the value of the best point passes 2^127 - 1
ROWS
 N cost
 G need
COLUMNS
 x cost 1e38 need 1
 y cost 1.5e38 need 1
RHS
 RHS need 2.5
BOUNDS
 UP BND x 1
ENDATA

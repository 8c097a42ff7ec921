* large-numbers.mps with its costs in units of 10^38
ROWS
 N cost
 G need
COLUMNS
 x cost 1 need 1
 y cost 1.5 need 1
RHS
 RHS need 2.5
BOUNDS
 UP BND x 1
ENDATA

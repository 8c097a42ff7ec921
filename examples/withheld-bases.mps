* two equations, so two strict steps; with --bases 1 the second one is missing
ROWS
 N obj
 E e1
 E e2
COLUMNS
 x e1 1
 y e2 1
RHS
 RHS e1 1 e2 1
ENDATA

* the best load: profits 10, 13, 7, 8 of weights 5, 7, 4, 5 into room 13, each at most once
ROWS
 N profit
 L room
COLUMNS
 M1 'MARKER' 'INTORG'
 a profit -10 room 5
 b profit -13 room 7
 c profit -7 room 4
 d profit -8 room 5
 M2 'MARKER' 'INTEND'
RHS
 RHS room 13
BOUNDS
 BV B a
 BV B b
 BV B c
 BV B d
ENDATA

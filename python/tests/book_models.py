"Models whose optima are known from books."
# The example of many descriptions of the format: its optimum is 54, here with a constant of 10 besides.
TESTPROB = """NAME          TESTPROB
ROWS
 N  COST
 L  LIM1
 G  LIM2
 E  MYEQN
COLUMNS
    XONE      COST         1.0   LIM1         1.0
    XONE      LIM2         1.0
    YTWO      COST         4.0   LIM1         1.0
    YTWO      MYEQN       -1.0
    ZTHREE    COST         9.0   LIM2         1.0
    ZTHREE    MYEQN        1.0
RHS
    RHS       COST       -10.0   LIM1         5.0
    RHS       LIM2        10.0   MYEQN        7.0
BOUNDS
 UP BND       XONE         4.0
 LO BND       YTWO        -1.0
 UP BND       YTWO         1.0
ENDATA
"""
# Hillier and Lieberman's example of glass products, with the optimum 36; long names, no names of sets, carriage returns.
GLASS = """NAME glass_products
OBJSENSE MAX
ROWS
 N total_profit
 L plant_1_hours
 L plant_2_hours
 L plant_3_hours
COLUMNS
 doors_batches total_profit 3 plant_1_hours 1
 doors_batches plant_3_hours 3.0000000000000000
 windows_batches total_profit 5 plant_2_hours 2
 windows_batches plant_3_hours 2
RHS
 plant_1_hours 4 plant_2_hours 12
 plant_3_hours 18
BOUNDS
 UP doors_batches 1e30
 LO windows_batches 0
ENDATA
""".replace("\n", "\r\n")
# Beale's example, on which the simplex method goes round in circles under other rules; its optimum is -1/20.
BEALE = """NAME BEALE
ROWS
 N COST
 L R1
 L R2
 L R3
COLUMNS
 X1 COST -0.75 R1 2.5e-1
 X1 R2 0.500000000000
 X2 COST 150 R1 -60
 X2 R2 -90
 X3 COST -2e-2 R1 -0.04
 X3 R2 -.02 R3 1
 X4 COST 6 R1 9
 X4 R2 3
RHS
 B R3 1
BOUNDS
 PL BND X1
ENDATA
"""

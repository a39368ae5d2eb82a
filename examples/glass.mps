* Two products of a glass works, doors and windows, in batches a week; three plants
* have 4, 12 and 18 hours. (Hillier and Lieberman's example.)
NAME glass_products
OBJSENSE
    MAX
ROWS
 N  total_profit
 L  plant_1_hours
 L  plant_2_hours
 L  plant_3_hours
COLUMNS
    doors    total_profit  3  plant_1_hours  1
    doors    plant_3_hours 3
    windows  total_profit  5  plant_2_hours  2
    windows  plant_3_hours 2
RHS
    week  plant_1_hours  4  plant_2_hours  12
    week  plant_3_hours  18
ENDATA

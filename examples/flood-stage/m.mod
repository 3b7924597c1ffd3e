# A flood in a valley: the water level of each reach of the river, read from a series, over the ground of the reach.
# Lengths are metres, steps are hours, and a cell of 25 by 25 metres has 0.0625 hectares.
binding
 Dem = dem.asc;
 Reach = reach.asc : nominal;        # the reach that a cell drains to
 Stage = stage.tss;                  # metres above the bed, a column for each reach
 Bed = bed.asc;
 Depth = depth;                      # a map for each hour: depth000.001 ..
 Flooded = flooded.tss;              # hectares of each reach
 Deepest = deepest.tss;              # the greatest depth of each reach so far
areamap Dem;
timer 1 8 1;
initial
 report Bed = areaminimum(Dem, Reach);
 Worst = 0;
dynamic
 Level = Bed + timeinputscalar(Stage, Reach);
 report Depth = max(0, Level - Dem);
 Worst = max(Worst, Depth);
 report Flooded = timeoutput(Reach, areatotal(scalar(Depth > 0), Reach) * 0.0625);
 report Deepest = timeoutput(Reach, areamaximum(Worst, Reach));

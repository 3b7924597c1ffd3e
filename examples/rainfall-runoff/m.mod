# Rainfall and runoff of a small catchment: rain by gauge, infiltration by soil, runoff along the drains.
# Amounts are millimetres, steps are hours, and a cell is 25 by 25 metres.
binding
 Rain = rain.tss;                    # a column for each gauge
 Gauges = gauges.asc : nominal;      # which gauge a cell belongs to
 Soil = soil.asc : nominal;          # 1 sand, 2 loam, 3 clay
 Infiltration = infiltration.tbl;    # the most that a soil takes in within an hour
 Ldd = ldd.asc : ldd;
 Outlets = outlets.asc : nominal;    # 1 the mouth, 2 the main stream and 3 the side stream above their confluence
 Area = area.asc;
 Runoff = runoff;                    # a map for each hour: runoff00.001 ..
 Hydrograph = hydrograph.tss;        # discharge at the outlets, cubic metres a second
areamap Ldd;
timer 1 10 1;
initial
 Most = lookupscalar(Infiltration, Soil);
 report Area = accuflux(Ldd, 1);     # upstream area, in cells
dynamic
 Fallen = timeinputscalar(Rain, Gauges);
 report Runoff = accuthresholdflux(Ldd, Fallen, Most);
 report Hydrograph = timeoutput(Outlets, Runoff * 625 / 3600000);

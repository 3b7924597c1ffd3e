#! timeoutput mean
# Rain, soil moisture and runoff of three gauged areas, as means over the area above each gauge: what is compared with
# what the gauges give. Lengths are millimetres, steps are days.
binding
 Rain = rain.tss;                       # a column for each rain gauge
 Evaporation = evaporation.tss;         # what a full soil evaporates, the same everywhere
 Nearest = nearest.asc : nominal;       # the rain gauge that is nearest to a cell
 Area = area.asc : nominal;             # the gauged area that a cell belongs to, 0 for none
 Soil = soil.asc : nominal;             # 1 sand, 2 loam, 3 clay; missing on open water
 Capacity = capacity.tbl;               # what a soil can hold
 MeanRain = rain_mean.tss;  Moisture = moisture.tss;  Runoff = runoff.tss;
areamap Area;
timer 1 8 1;
initial
 Cap = lookupscalar(Capacity, Soil);
 Store = Cap / 2;
dynamic
 Fallen = timeinputscalar(Rain, Nearest);           # missing where the nearest gauge has no reading
 Dried = Store - timeinputscalar(Evaporation, 1) * Store / Cap;
 Full = Dried + cover(Fallen, 0);
 Store = min(Full, Cap);
 report MeanRain = timeoutput(Area, Fallen);
 report Moisture = timeoutput(Area, 100 * Store / Cap);   # percent of what the soils can hold
 report Runoff = timeoutput(Area, Full - Store);

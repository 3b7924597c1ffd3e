# A soil bucket: rain fills it, evaporation empties it in proportion to what is there, what is too much runs off.
# Lengths are millimetres, steps are days.
binding
 Rain = rain.tss;                       # a column for each gauge
 Demand = demand.tss;                   # what a full soil would evaporate
 Gauges = gauges.asc : nominal;         # which gauge a cell belongs to
 Soil = soil.asc : nominal;
 Capacity = capacity.tbl;               # what a soil can hold
 Moist = moist;                         # a map for each day: moist000.001 ..
 Stores = store.tss;  Runoff = runoff.tss;
areamap Soil;
timer 1 6 1;
initial
 Cap = lookupscalar(Capacity, Soil);
 Store = Cap * 0.5;
 Lost = 0;
dynamic
 Evap = min(Store, timeinputscalar(Demand, Gauges) * Store / Cap);
 Full = Store - Evap + cover(timeinputscalar(Rain, Gauges), 0);   # no reading: no rain
 Over = max(0, Full - Cap);
 Store = Full - Over;
 Lost = Lost + Over;
 report Moist = Store / Cap;
 report Stores = timeoutput(Soil, Store);
 report Runoff = timeoutput(Soil, Lost);

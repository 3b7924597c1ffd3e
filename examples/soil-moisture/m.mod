# A store of soil moisture: rain fills it, evaporation empties it in proportion to what is there, and what is too much
# runs off along the drains. Amounts are millimetres, steps are days.
binding
 Rain = rain.tss;  Demand = demand.tss;      # one column each: the same everywhere
 Soil = soil.asc : nominal;
 Capacity = capacity.tbl;                    # what a soil can hold
 Ldd = ldd.asc : ldd;
 Outlet = outlet.asc : nominal;
 Moist = moist;                              # a map for each day, between 0 and 1: moist000.001 ..
 Flow = flow.tss;                            # what leaves the valley, millimetres over its area
 Mean = mean.tss;                            # mean store of each soil
areamap Ldd;
timer 1 8 1;
initial
 Cap = windowaverage(lookupscalar(Capacity, Soil), 5);     # soils pass into each other
 Store = Cap * 0.5;
 Cells = maptotal(1);
dynamic
 Evap = min(Store, timeinputscalar(Demand, 1) * Store / Cap);
 Full = Store - Evap + timeinputscalar(Rain, 1);
 Over = max(0, Full - Cap);
 Store = Full - Over;
 report Moist = Store / Cap;
 report Flow = timeoutput(Outlet, accuflux(Ldd, Over) / Cells);
 report Mean = timeoutput(Soil, areaaverage(Store, Soil));

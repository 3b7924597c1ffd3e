# Runoff of one storm: the rain beyond what the ground takes in and its hollows hold. Amounts are in millimetres.
binding
 Rain = rain.asc;              # missing where no gauge is near
 Soil = soil.asc : nominal;    # 1 sand, 2 loam, 3 clay
 Slope = slope.asc;            # percent
 Paved = paved.asc : boolean;  # missing outside of the village
 MeanRain = 42;
 Hollows = 2;
 Steepness = steepness.asc;
 Capacity = capacity.asc;
 Runoff = runoff.asc;
 Share = share.asc;
 Flooded = flooded.asc;
areamap Soil;
initial
 report Steepness = nominal(if(Slope < 5 then 1 else if(Slope < 15 then 2 else 3)));
 # what a soil takes in on flat ground, less of it on steeper slopes, and nothing of it under a road or a roof
 OnFlat = if(Soil == 1 then 60 else if(Soil == 2 then 35 else 15));
 report Capacity = if(cover(Paved, 0) then 0 else OnFlat / scalar(Steepness));
 Fallen = cover(Rain, MeanRain);
 report Runoff = max(Fallen - Capacity - Hollows, 0);
 report Share = Runoff / Fallen;
 # water stands where much comes and the ground is flat
 report Flooded = Runoff >= 25 and Steepness == 1;

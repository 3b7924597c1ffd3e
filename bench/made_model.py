"""Makes the files of a watershed by a rule that draws each cell: a drain map, zones, soils and a series of rain, of any size.

  made_model.py FOLDER SIZE [NUMBER]
Each draw sets x to 6364136223846793005 x + 1442695040888963407 modulo 2^64, beginning with NUMBER, and gives its upper 32 bits.
One draw is made for each cell in row-major order, then one for each step and column of the rain.
"""

import sys
from pathlib import Path

SCRIPT = """binding
Ldd = made_ldd.asc : ldd;
Zone = made_zone.asc : nominal;
Soil = made_soil.asc;
Rain = made_rain.tss;
Q = q;
T = made_q.tss;
areamap Ldd;
timer 1 4 1;
initial
Store = 0;
dynamic
Wet = timeinputscalar(Rain, Zone) + windowaverage(Soil, 3);
Store = Store + accuthresholdstate(Ldd, Wet, Soil);
report Q = accuthresholdflux(Ldd, Wet, Soil);
report Mean = areaaverage(Wet, Zone);
report T = timeoutput(Zone, Q);
"""
STEPS = 4
ZONES = 4


def draws(number):
    """The draws that follow on a number."""
    x = number
    while True:
        x = (6364136223846793005 * x + 1442695040888963407) % 2**64
        yield x >> 32


def scalar(millionths):
    """The shortest text of a scalar."""
    whole, fraction = divmod(millionths, 1_000_000)
    return f"{whole}.{fraction:06}".rstrip("0").rstrip(".") if fraction else str(whole)


def make(folder, size, number=7):
    """Puts the script and its files into a folder."""
    folder.mkdir(parents=True, exist_ok=True)
    draw = draws(number)
    head = f"ncols {size}\nnrows {size}\nxllcorner 0\nyllcorner 0\ncellsize 1\nNODATA_value 1e31\n"
    middle = size // 2
    soils = [scalar(n * 10_000) for n in range(1000)]
    with (
        open(folder / "made_ldd.asc", "w", encoding="ascii") as ldd,
        open(folder / "made_zone.asc", "w", encoding="ascii") as zone,
        open(folder / "made_soil.asc", "w", encoding="ascii") as soil,
    ):
        for file in (ldd, zone, soil):
            file.write(head)
        for row in range(size):
            drawn = [next(draw) for _ in range(size)]
            last = row + 1 == size
            # the neighbour to the south-west, the south, the south-east or the east, and a pit where there is none
            inside = [
                lambda col: not last and col > 0, lambda col: not last,
                lambda col: not last and col + 1 < size, lambda col: col + 1 < size,
            ]
            codes = ("1", "2", "3", "6")
            ldd.write(" ".join(codes[u % 4] if inside[u % 4](col) else "5" for col, u in enumerate(drawn)) + "\n")
            zone.write(" ".join(str(1 + 2 * (row >= middle) + (col >= middle)) for col in range(size)) + "\n")
            soil.write(" ".join(soils[(u // 4) % 1000] for u in drawn) + "\n")
    lines = ["timeseries scalar", str(ZONES + 1), "timestep", *(str(name + 1) for name in range(ZONES))]
    for step in range(1, STEPS + 1):
        lines.append(" ".join([str(step), *(str(next(draw) % 10) for _ in range(ZONES))]))
    (folder / "made_rain.tss").write_text("\n".join(lines) + "\n", encoding="ascii")
    (folder / "made.mod").write_text(SCRIPT, encoding="ascii")


if __name__ == "__main__":
    make(Path(sys.argv[1]), int(sys.argv[2]), *map(int, sys.argv[3:4]))

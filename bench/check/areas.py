# The area of the metal in every window by KLayout's tiling processor, its fastest way: one tile for each step, with a
# border so that it reaches over the window.
# usage: klayout -b -r areas.py -rd design=GDS -rd rules=CSV -rd threads=N -rd out=FILE
import pya

values = dict(line.strip().split(",") for line in open(rules))
number = lambda key: int(values[key])
size, step = (number("win_w"), number("win_h")), (number("win_step_x"), number("win_step_y"))
count, first = (number("win_nx"), number("win_ny")), (number("win_x"), number("win_y"))

layout = pya.Layout()
layout.read(design)
micrometres = layout.dbu
border = [(size[k] - step[k]) * micrometres / 2 for k in (0, 1)]
areas = {}


class Areas(pya.TileOutputReceiver):
    def put(self, column, row, tile, area, unit, clip):
        areas[(row, column)] = area


tiles = pya.TilingProcessor()
tiles.input("metal", layout, layout.cell(values["top"]).cell_index(), pya.LayerInfo(number("layer"), number("datatype")))
tiles.tile_size(step[0] * micrometres, step[1] * micrometres)
tiles.tile_origin(first[0] * micrometres + border[0], first[1] * micrometres + border[1])
tiles.tile_border(border[0], border[1])
tiles.tiles(*count)
tiles.threads = int(threads)
tiles.output("areas", Areas())
for name, value in (("x", first[0]), ("y", first[1]), ("dx", step[0]), ("dy", step[1]), ("w", size[0]), ("h", size[1])):
    tiles.var(name, value)
# The border may be half a unit more than whole ones, so the window is found by its number.
tiles.queue("""
var left = x + floor((_tile.bbox.left - x) / dx) * dx;
var bottom = y + floor((_tile.bbox.bottom - y) / dy) * dy;
_output(areas, metal.area(Box.new(left, bottom, left + w, bottom + h)))
""")
tiles.execute("areas")
with open(out, "w") as file:
    file.writelines(f"{column},{row},{areas[(row, column)]}\n" for row, column in sorted(areas))

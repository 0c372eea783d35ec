# Puts the tops of fill libraries below the top of a design, at the origin, as a hand would in KLayout, and tells in how many layers that
# differs from a merged file: klayout -b -r klayout_merge.py -rd design=.. -rd top=.. -rd fills=.. -rd merged=.. (fills: a library's top and
# its path, a line each).
import pya

# The names that stand behind -rd.
design, top, fills, merged = (str(globals()[name]) for name in ("design", "top", "fills", "merged"))
layout = pya.Layout()
layout.read(design)
below = layout.cell(top)
for line in fills.split("\n"):
    name, path = line.split(" ", 1)
    one = pya.Layout()
    one.read(path)
    cell = layout.create_cell(name)
    cell.copy_tree(one.cell(name))
    below.insert(pya.CellInstArray(cell.cell_index(), pya.Trans()))

other = pya.Layout()
other.read(merged)
same = abs(other.dbu - layout.dbu) < 1e-12 and sorted(cell.name for cell in other.each_cell()) == sorted(cell.name for cell in layout.each_cell())
infos = {(info.layer, info.datatype) for one in (layout, other) for info in one.layer_infos()}
different = 0
for number in sorted(infos):
    regions = [pya.Region(one.cell(top).begin_shapes_rec(one.layer(*number))) for one in (layout, other)]
    if regions[0].count() != regions[1].count() or not (regions[0] ^ regions[1]).is_empty():
        different += 1
print("cells the same:", same, "layers:", len(infos), "different:", different)

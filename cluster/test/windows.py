# The area of metal and of boxes in some windows by KLayout, shape by shape of what meets a window.
# usage: klayout -b -r windows.py -rd design=GDS -rd top=NAME -rd layer=N/N -rd fill=GDS -rd fill_top=NAME -rd fill_layer=N/N \
#                -rd windows=CSV -rd out=CSV
import pya


def opened(path, top_name, layer_name):
    layout = pya.Layout()
    layout.read(path)
    number, datatype = map(int, layer_name.split("/"))
    return layout, layout.cell(top_name), layout.find_layer(number, datatype)


def area(of, box):
    layout, top, layer = of
    if layer is None:
        return 0
    return (pya.Region(pya.RecursiveShapeIterator(layout, top, layer, box, False)) & pya.Region(box)).merged().area()


metal, boxes = opened(design, top, layer), opened(fill, fill_top, fill_layer)
with open(windows) as given, open(out, "w") as told:
    for line in given:
        box = pya.Box(*map(int, line.split(",")))
        told.write(f"{area(metal, box)},{area(boxes, box)}\n")

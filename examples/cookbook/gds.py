# Masks from CIF to GDSII, by KLayout: klayout -b -r examples/cookbook/gds.py -rd cif=nand2.cif -rd gds=nand2.gds
# GDSII has numbers for layers and no names. These are freely chosen; whoever takes the file has to know them.
import pya

NUMBERS = {"ND": 1, "NP": 2, "NC": 3, "NM": 4, "NI": 5, "NB": 6}

layout = pya.Layout()
layout.read(cif)
for layer in layout.layer_indexes():
    name = layout.get_info(layer).name
    layout.set_info(layer, pya.LayerInfo(NUMBERS[name], 0, name))
layout.write(gds)

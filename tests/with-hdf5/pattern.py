"""A pattern of warp knitting as an HDF5 file, and the edits that designers make in copies of it.

The file has what an editor of patterns keeps: guide bar chains, the lapping, tables of yarns. What matters for the
store is how HDF5 lays these out, so there are contiguous and chunked datasets, compressed chunks with HDF5's own
checksums, a compound table, text of variable length, and attributes.
"""

import dataclasses
from typing import Callable

import h5py
import numpy

COURSES = 1024
NEEDLES = 180
YARNS = 24

# Lappings in the usual notation: the needle spaces that the bar goes between, courses parted by strokes.
LAPPINGS = {1: "1-0/1-2//", 2: "1-0/3-4//", 3: "2-3/1-0//", 4: "1-0/0-1/2-3/3-2//"}
STARTING_SPACES = {1: 1, 2: 1, 3: 2, 4: 1}
STEPS = {1: [-1, 0, 1, 0], 2: [-1, 2, 1, -2], 3: [1, -2, -1, 2], 4: [-1, 1, 1, -1, 1, -1, -1, 1]}

YARN = numpy.dtype(
    [("name", "S24"), ("material", "S16"), ("decitex", "<f4"), ("filaments", "<u2"), ("colour", "u1", (3,))]
)


# ---- the original -----------------------------------------------------------------------------------------------------


def write_original(path):
    with h5py.File(path, "w") as file:
        file.attrs["title"] = "curtain net with a figured stripe"
        file.attrs["machine"] = "raschel, one needle bar"
        file.attrs["needles per inch"] = numpy.int32(18)
        file.attrs["courses per centimetre"] = numpy.float64(14.5)
        for bar in LAPPINGS:
            write_bar(file.create_group(f"guide_bars/bar_{bar}"), bar)
        # The large datasets come last, so that the dataset deleted by an edit does not lie at the end of the file:
        # HDF5 would cut it off there, and a revision cannot be shorter than its parent.
        write_yarns(file.create_group("yarns"))
        write_lapping(file.create_group("lapping"))
        write_fabric(file.create_group("fabric"))


def write_bar(group, bar):
    group.attrs["lapping"] = LAPPINGS[bar]
    group.attrs["starting space"] = numpy.uint16(STARTING_SPACES[bar])
    group.attrs["millimetres per rack"] = numpy.float64(1500 + 130 * bar)
    steps = numpy.resize(numpy.array(STEPS[bar], dtype="i1"), 2 * COURSES)
    # A chain may get longer, which HDF5 allows for chunked datasets only.
    group.create_dataset("chain", data=steps, chunks=(512,), maxshape=(None,))
    positions = STARTING_SPACES[bar] + numpy.cumsum(steps, dtype="<i2")
    group.create_dataset("positions", data=positions.astype("<i2"))


def write_yarns(group):
    table = numpy.zeros(YARNS, dtype=YARN)
    for place, row in enumerate(table):
        row["name"] = f"yarn {place + 1}"
        row["material"] = ["polyester", "polyamide", "viscose"][place % 3]
        row["decitex"] = 44 + 11 * (place % 5)
        row["filaments"] = 12 + 6 * (place % 4)
        row["colour"] = (10 * place, 255 - 7 * place, 40 + 3 * place)
    group.create_dataset("table", data=table)
    group.create_dataset("beams", data=numpy.arange(2400, dtype="<i4").reshape(4, 600) * 37 % 1009)
    threading = numpy.arange(4 * NEEDLES).reshape(4, NEEDLES) % YARNS
    group.create_dataset("threading", data=threading.astype("u1"))
    group.create_dataset("notes", data=["draw in by hand", "bar 3: one in, one out"], dtype=h5py.string_dtype())


def write_lapping(group):
    group.create_dataset("needle_map", data=figure())


def figure():
    course, needle = numpy.mgrid[0:COURSES, 0:NEEDLES]
    return ((course * needle // 97 + course // 5 + needle * 3) % 7).astype("u1")


def write_fabric(group):
    course, needle = numpy.mgrid[0:256, 0:128]
    density = numpy.sin(course / 9.0) + numpy.cos(needle / 7.0) + (course * needle % 31) / 31
    group.create_dataset(
        "density", data=density.astype("<f4"), chunks=(64, 64), compression="gzip", shuffle=True, fletcher32=True
    )


# ---- the edits --------------------------------------------------------------------------------------------------------

# Each edit is a pair: what makes it in an open file, and what tells whether an open file has it.


def change_numbers(file):
    file["lapping/needle_map"][100:108, 40:60] = 9


def numbers_changed(file):
    needle_map = file["lapping/needle_map"][...]
    return bool((needle_map[100:108, 40:60] == 9).all()) and numpy.count_nonzero(needle_map == 9) == 160


def change_attribute(file):
    # Changed where it stands; an assignment would store it anew.
    file["guide_bars/bar_2"].attrs.modify("millimetres per rack", numpy.float64(1812.25))


def attribute_changed(file):
    return file["guide_bars/bar_2"].attrs["millimetres per rack"] == 1812.25


INLAY = numpy.resize(numpy.array([0, 0, 5, 5], dtype="<i2"), 3 * COURSES)


def add_bar(file):
    group = file.create_group("guide_bars/bar_5")
    group.attrs["lapping"] = "0-0/5-5//"
    group.create_dataset("positions", data=INLAY)


def bar_added(file):
    name = "guide_bars/bar_5/positions"
    return name in file and numpy.array_equal(file[name][...], INLAY)


def lengthen_chain(file):
    chain = file["guide_bars/bar_3/chain"]
    chain.resize((2 * COURSES + 1536,))
    chain[2 * COURSES :] = numpy.resize(numpy.array([2, -2], dtype="i1"), 1536)


def chain_lengthened(file):
    chain = file["guide_bars/bar_3/chain"]
    return chain.shape == (2 * COURSES + 1536,) and list(chain[-4:]) == [2, -2, 2, -2]


def delete_beams(file):
    del file["yarns/beams"]


def beams_deleted(file):
    return "table" in file["yarns"] and "beams" not in file["yarns"]


def rename_lapping(file):
    file.move("lapping", "lapping_movements")


def lapping_renamed(file):
    return "lapping" not in file and "lapping_movements/needle_map" in file


def change_density(file):
    file["fabric/density"][60:70, 60:70] = 2.5


def density_changed(file):
    return bool((file["fabric/density"][60:70, 60:70] == 2.5).all())


LONG_LAPPING = "/".join(["1-0", "1-2", "2-3", "2-1"] * 40) + "//"


def lengthen_attribute(file):
    file["guide_bars/bar_1"].attrs["lapping"] = LONG_LAPPING


def attribute_lengthened(file):
    return file["guide_bars/bar_1"].attrs["lapping"] == LONG_LAPPING


def change_table(file):
    table = file["yarns/table"]
    rows = table[3:5]
    rows["material"] = "cotton"
    rows["decitex"] = 167
    table[3:5] = rows


def table_changed(file):
    cotton = file["yarns/table"]["material"] == b"cotton"
    return list(numpy.flatnonzero(cotton)) == [3, 4]


def change_nothing(file):
    # To open for writing and to close is an edit too: a program may do no more.
    pass


def nothing_changed(file):
    # Its parent's edit is still there.
    return density_changed(file)


def mirrored_figure():
    """The figure turned left to right in other yarns, so that every byte of it changes."""
    return figure()[:, ::-1] + 10


def mirror(courses):
    def make(file):
        file["lapping_movements/needle_map"][courses] = mirrored_figure()[courses]

    return make


def mirrored(courses):
    def shown(file):
        name = "lapping_movements/needle_map"
        return name in file and numpy.array_equal(file[name][courses], mirrored_figure()[courses])

    return shown


ALL_COURSES = slice(0, COURSES)
FIRST_HALF = slice(0, COURSES // 2)
SECOND_HALF = slice(COURSES // 2, COURSES)


def delete_added_bar(file):
    # It was added last and lies at the end of the file, which HDF5 cuts off.
    del file["guide_bars/bar_5"]


def added_bar_deleted(file):
    return "guide_bars/bar_5" not in file


@dataclasses.dataclass
class Edit:
    """An edit of a copy of its parent."""

    parent: int
    kind: str
    name: str
    comment: str
    make: Callable[[h5py.File], None]
    shown: Callable[[h5py.File], bool]
    # Whether zeros are put behind the copy up to its parent's length, where HDF5 has made it shorter.
    padded: bool = False


# Place k, counted from 1, becomes revision k.
EDITS = [
    Edit(0, "numbers of a contiguous dataset changed in place", "ana", "stripe", change_numbers, numbers_changed),
    Edit(1, "attribute changed in place", "ana", "run-in of bar 2", change_attribute, attribute_changed),
    Edit(2, "group and dataset added", "ana", "inlay bar", add_bar, bar_added),
    Edit(1, "chunked dataset resized and filled", "ben", "longer chain", lengthen_chain, chain_lengthened),
    Edit(4, "dataset deleted", "ben", "no beams", delete_beams, beams_deleted),
    Edit(3, "group renamed", "ana", "clearer name", rename_lapping, lapping_renamed),
    Edit(0, "numbers in compressed chunks changed", "cleo", "denser field", change_density, density_changed),
    Edit(5, "attribute replaced by a longer one", "ben", "full lapping", lengthen_attribute, attribute_lengthened),
    Edit(6, "two rows of a compound table changed", "ana", "cotton", change_table, table_changed),
    Edit(7, "opened for writing and closed", "cleo", "", change_nothing, nothing_changed),
    Edit(9, "half of a large dataset overwritten", "ana", "mirrored, half", mirror(FIRST_HALF), mirrored(FIRST_HALF)),
    Edit(11, "the other half overwritten", "ana", "mirrored", mirror(SECOND_HALF), mirrored(ALL_COURSES)),
    Edit(3, "last dataset of the file deleted, padded", "dora", "no inlay", delete_added_bar, added_bar_deleted, True),
]

# Edits that have to be refused.
OVER_256_PAGES = Edit(9, "large dataset overwritten at once", "ana", "", mirror(ALL_COURSES), mirrored(ALL_COURSES))
SHORTER = Edit(3, "last dataset of the file deleted", "ana", "", delete_added_bar, added_bar_deleted)

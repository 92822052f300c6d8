"""The checks of tests/with-hdf5/run, which sets up what they need.

    checks.py TOOL LIBRARY FOLDER     the program `onion`, the store's shared library, an empty folder to work in
"""

import collections
import hashlib
import pathlib
import shutil
import subprocess
import sys

import h5py
import numpy

import checksums
import pattern

PAGE_SIZE = 512
TOOL, LIBRARY, FOLDER = (pathlib.Path(argument).resolve() for argument in sys.argv[1:4])
# h5dump shows the name of the file, so a copy and what is read back have the same name in two folders.
COPIES = FOLDER / "copies"
READ_BACK = FOLDER / "read back"
ORIGINAL = COPIES / "revision-0.h5"
HISTORY = FOLDER / "pattern.history"

counts = collections.Counter()


def check(description, fine, why=""):
    counts["checks"] += 1
    if fine:
        print(f"ok    {description}", flush=True)
    else:
        counts["failed"] += 1
        print(f"FAIL  {description}: {why or 'it is not so'}", flush=True)
    return fine


def onion(*arguments):
    return subprocess.run([TOOL, *map(str, arguments)], capture_output=True, text=True)


def said(outcome):
    return f"status {outcome.returncode}, output {outcome.stdout!r}, error {outcome.stderr!r}"


def accepted(outcome):
    return outcome.returncode == 0 and outcome.stderr == ""


def sum_of(path):
    return hashlib.sha256(path.read_bytes()).hexdigest()


def file_name(revision):
    return f"revision-{revision}.h5"


def pages_touched(before, after):
    """The pages of the new bytes that are new or differ: counted here, and not taken from the tool."""
    addresses = range(0, len(after), PAGE_SIZE)
    return {at for at in addresses if before[at : at + PAGE_SIZE] != after[at : at + PAGE_SIZE]}


def commit(edit, edited, time):
    note = [f"--name={edit.name}", f"--comment={edit.comment}", f"--time={time}", "--user=1000"]
    return onion("commit", ORIGINAL, HISTORY, edited, f"--on={edit.parent}", *note)


def make_copy(edit, path):
    shutil.copyfile(COPIES / file_name(edit.parent), path)
    length = path.stat().st_size
    with h5py.File(path, "r+") as file:
        edit.make(file)
    if edit.padded:
        with open(path, "ab") as file:
            file.truncate(length)
    return path.read_bytes()


def time_of(revision):
    return f"20240305T{6 + revision:02}1500Z"


# ---- committing -------------------------------------------------------------------------------------------------------


def commit_edits():
    """Commits every edit. Gives a row for each revision: itself, parent, kind of edit, size, addresses of its pages."""
    table = [(0, None, "the original", ORIGINAL.stat().st_size, set())]
    for revision, edit in enumerate(pattern.EDITS, start=1):
        before = (COPIES / file_name(edit.parent)).read_bytes()
        after = make_copy(edit, COPIES / file_name(revision))
        touched = pages_touched(before, after)
        outcome = commit(edit, COPIES / file_name(revision), time_of(revision))
        pages = "1 page" if len(touched) == 1 else f"{len(touched)} pages"
        expected = f"committed revision {revision} on {edit.parent}: {pages} changed\n"
        check(
            f"revision {revision} on {edit.parent}: {edit.kind}, {len(before)} to {len(after)} bytes, {pages}",
            accepted(outcome) and outcome.stdout == expected,
            said(outcome),
        )
        table.append((revision, edit.parent, edit.kind, len(after), touched))
    return table


def refuse_edits():
    """After all others, so that each has its parent and only what is wrong with it can be the reason to refuse."""
    with_all = make_copy(pattern.OVER_256_PAGES, FOLDER / "refused.h5")
    before = (COPIES / file_name(pattern.OVER_256_PAGES.parent)).read_bytes()
    pages = len(pages_touched(before, with_all))
    check(f"an edit that touches {pages} pages is made", pages > 256)
    refuse(pattern.OVER_256_PAGES, "refused 14:")
    check(
        "revision 12 is that edit, brought in by two commits",
        with_all == (COPIES / file_name(12)).read_bytes(),
        "the two copies differ",
    )

    shorter = make_copy(pattern.SHORTER, FOLDER / "refused.h5")
    before = (COPIES / file_name(pattern.SHORTER.parent)).read_bytes()
    check(f"an edit that shortens {len(before)} to {len(shorter)} bytes is made", len(shorter) < len(before))
    refuse(pattern.SHORTER, "a revision cannot shrink")
    padded = COPIES / file_name(13)
    # HDF5 knows where its file ends, and does not look at what stands behind.
    same = padded.read_bytes() == shorter.ljust(len(before), b"\0")
    # The first line has the name of the file.
    dumps = [dump(path).stdout.split(b"\n", 1)[1] for path in (FOLDER / "refused.h5", padded)]
    same = same and dumps[0] == dumps[1]
    check("revision 13 is that edit, padded with zeros, and h5dump shows the same of both", same)


def refuse(edit, words):
    before = sum_of(HISTORY)
    outcome = commit(edit, FOLDER / "refused.h5", "20240306T000000Z")
    one_line = outcome.stderr.count("\n") == 1 and words in outcome.stderr
    clean = outcome.returncode == 1 and outcome.stdout == "" and one_line
    check(f"it is refused in one line with '{words}'", clean, said(outcome))
    check("and the history is as it was", sum_of(HISTORY) == before)


# ---- reading back -----------------------------------------------------------------------------------------------------


def read_back(revision):
    """All revisions are read after the last commit, so a later commit that harms an earlier revision is seen."""
    copy = COPIES / file_name(revision)
    back = READ_BACK / file_name(revision)
    outcome = onion("read", ORIGINAL, HISTORY, "--revision", revision, "--output", back)
    fine = accepted(outcome) and outcome.stdout == ""
    equal = fine and back.read_bytes() == copy.read_bytes()
    check(f"revision {revision} reads back byte for byte", equal, said(outcome))
    if not fine:
        return

    of_back, of_copy = dump(back), dump(copy)
    fine = of_back.returncode == 0 and of_back.stderr == b"" and of_copy.returncode == 0
    check(
        f"h5dump shows the same of revision {revision} and of its copy, {len(of_copy.stdout)} bytes",
        fine and of_back.stdout == of_copy.stdout,
        of_back.stderr.decode(errors="replace") or "the two differ",
    )
    if revision > 0:
        opens_with_edit(revision, back)


def dump(path):
    return subprocess.run(["h5dump", path.name], cwd=path.parent, capture_output=True)


def opens_with_edit(revision, back):
    edit = pattern.EDITS[revision - 1]
    parent = COPIES / file_name(edit.parent)
    found = find_edit(edit, back)
    if edit.make is pattern.change_nothing:
        same = back.read_bytes() == parent.read_bytes()
        check(f"h5py opens revision {revision}, which has its parent's bytes", found is True and same, found)
        return
    found_before = find_edit(edit, parent)
    check(
        f"h5py finds the edit in revision {revision} and not in its parent",
        found is True and found_before is False,
        f"in it {found}, in its parent {found_before}",
    )


def find_edit(edit, path):
    """Whether h5py finds an edit in a file, or why it cannot tell."""
    try:
        with h5py.File(path, "r") as file:
            return bool(edit.shown(file))
    except (OSError, RuntimeError, KeyError, ValueError) as trouble:
        return f"{type(trouble).__name__}: {trouble}"


# ---- the history ------------------------------------------------------------------------------------------------------

TREE = """\
● 0
├─● 7
│ ● 10
● 1
├─● 4
│ ● 5
│ ● 8
● 2
● 3
├─● 13
● 6
● 9
● 11
● 12
"""


def tree_with_labels():
    lines = []
    for line in TREE.splitlines():
        drawn, revision = line.rsplit(" ", 1)
        revision = int(revision)
        if revision == 0:
            label = f"the original, {ORIGINAL.stat().st_size} bytes"
        else:
            edit = pattern.EDITS[revision - 1]
            label = f"2024-03-05 {6 + revision:02}:15:00  {edit.name}  {edit.comment}".rstrip()
        lines.append(f"{drawn} {revision}  {label}\n")
    return "".join(lines)


def list_with(table):
    """What `onion list` has to show: a record's index has the pages of its revision and of all above it."""
    touched = {}
    lines = [f"pages {PAGE_SIZE} original {table[0][3]} revisions {len(table) - 1} lock no branch yes\n"]
    for revision, parent, _, size, pages in table:
        touched[revision] = pages | touched.get(parent, set())
        if revision > 0:
            name = pattern.EDITS[revision - 1].name
            lines.append(f"{revision} {parent} {time_of(revision)} {size} {len(touched[revision])} {name}\n")
    return "".join(lines)


def check_history(table):
    outcome = onion("check", HISTORY, ORIGINAL)
    expected = f"no fault in {len(pattern.EDITS)} revisions\n"
    check("onion check accepts", accepted(outcome) and outcome.stdout == expected, said(outcome))
    outcome = onion("list", HISTORY)
    expected = list_with(table)
    check("onion list has parents, sizes and pages", accepted(outcome) and outcome.stdout == expected, said(outcome))
    outcome = onion("log", HISTORY)
    check("onion log shows the tree", accepted(outcome) and outcome.stdout == tree_with_labels(), said(outcome))
    print(outcome.stdout, end="")


# ---- checksums --------------------------------------------------------------------------------------------------------


def check_checksums():
    try:
        libhdf5 = checksums.load("libhdf5_serial.so", "H5_checksum_fletcher32")
    except (OSError, AttributeError) as trouble:
        check("libhdf5_serial.so exports H5_checksum_fletcher32", False, trouble)
        return
    check("libhdf5_serial.so exports H5_checksum_fletcher32", True)
    ours = checksums.load(str(LIBRARY), "onion_checksum")

    check_equal("random buffers", checksums.random_buffers(), ours, libhdf5)
    check_equal("buffers of zeros, ones and single bits", checksums.plain_buffers(), ours, libhdf5)
    zero_sums = list(checksums.zero_sum_buffers())
    check_equal("buffers with sums that are 0 modulo 65,535", zero_sums, ours, libhdf5)
    first = sum(libhdf5(data) & 65535 == 65535 for data in zero_sums)
    second = sum(libhdf5(data) >> 16 == 65535 for data in zero_sums)
    check(f"of these {first} have such a first sum and {second} such a second", min(first, second) >= 2000)
    check_equal("buffers of 16 MiB and a byte less", checksums.long_buffers(), ours, libhdf5)

    check_history_checksums(libhdf5)
    check_chunk_checksums(ours)


def check_equal(what, buffers, ours, libhdf5):
    found, odd, even = checksums.differences(buffers, ours, libhdf5)
    check(
        f"store, libhdf5 and exact totals agree on {odd + even} {what}, {odd} of odd and {even} of even length",
        not found,
        f"{len(found)} differ, first " + "; ".join(found[:3]),
    )


def check_history_checksums(libhdf5):
    """The same from the other side: libhdf5's function over what the store has stored."""
    kinds = collections.Counter()
    wrong = collections.Counter()
    for kind, (covered, stored) in checksums.stored_checksums(HISTORY.read_bytes()):
        kinds[kind] += 1
        wrong[kind] += libhdf5(covered) != stored
    shown = ", ".join(f"{kind} {count}" for kind, count in kinds.items())
    check(f"libhdf5 gives every checksum in the history: {shown}", not wrong.total(), f"wrong are {dict(wrong)}")


def check_chunk_checksums(ours):
    """HDF5 stores its checksum little-endian behind each chunk of a dataset that asks for it."""
    chunks = wrong = 0
    for path in sorted(READ_BACK.iterdir()):
        with h5py.File(path, "r") as file:
            dataset = file["fabric/density"]
            for chunk in dataset.iter_chunks():
                _, data = dataset.id.read_direct_chunk(tuple(part.start for part in chunk))
                chunks += 1
                wrong += ours(data[:-4]) != int.from_bytes(data[-4:], "little")
    description = f"the store gives the checksums of {chunks} chunks that HDF5 stored in the files"
    check(description, chunks > 0 and wrong == 0, f"{wrong} differ")


def main():
    COPIES.mkdir()
    READ_BACK.mkdir()
    versions = f"h5py {h5py.version.version}, HDF5 {h5py.version.hdf5_version}, numpy {numpy.__version__}"
    print(f"{versions}, page size {PAGE_SIZE}")

    pattern.write_original(ORIGINAL)
    before = sum_of(ORIGINAL)
    outcome = onion("create", HISTORY, ORIGINAL, "--page", PAGE_SIZE, "--branching")
    check(f"a history for an original of {ORIGINAL.stat().st_size} bytes", accepted(outcome), said(outcome))

    table = commit_edits()
    refuse_edits()
    for revision in range(len(pattern.EDITS) + 1):
        read_back(revision)
    check_history(table)
    check(f"the original is untouched, sha256 {before}", sum_of(ORIGINAL) == before)
    check_checksums()

    print(f"{counts['checks']} checks, {counts['failed']} failed")
    return 1 if counts["failed"] else 0


sys.exit(main())

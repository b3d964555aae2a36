"""Writes the stored files of the programs' runs, or compares them (--check).

To be run from the repository's root. A run is a folder under crates/ with its input
files in data/, their names in args, and the expected output in stdout.
"""

import sys
from pathlib import Path

sys.dont_write_bytecode = True

from u3d import (  # noqa: E402 (after the setting above)
    block_files, blocks, climb_calls, climb_files, climb_walks, coder_calls, coder_files,
    coder_refusals, mesh, mesh_files)

CRATES = Path("crates")


def run_files(crate, inputs, stdout, more=()):
    """The stored files of one run, by path; `inputs` are (name, bytes), `more` further arguments."""
    folder = CRATES / crate
    files = {folder / "data" / name: data for name, data in inputs}
    files[folder / "args"] = lines([*(name for name, _ in inputs), *more])
    files[folder / "stdout"] = stdout
    return files


def lines(texts):
    return "".join(text + "\n" for text in texts).encode("ascii")


def list_blocks():
    """The listing program on one sample."""
    data = block_files.sample()
    return run_files("list_blocks", [("sample.u3d", data)], blocks.listing(data))


def walk_runs():
    """Everything that a walk hands out, for each file."""
    cases = block_files.cases()
    for case in cases:
        judge_case(case)
    inputs = [(case.name, case.data) for case in cases] + block_files.mutants()
    stdout = b"".join(walk_report(name, data) for name, data in inputs)
    return run_files("walk_runs", inputs, stdout)


def judge_case(case):
    """The reader must agree with the answer worked out by hand."""
    number, place, _ = blocks.walk(case.data, blocks.PROGRAM_LIMIT)
    if (number, place) != (case.number, case.place):
        sys.exit("%s: %d at %d, by hand %d at %d"
                 % (case.name, number, place, case.number, case.place))


def walk_report(name, data):
    """A file's answer, header fields, listing, and the parts of its blocks."""
    number, place, rows = blocks.walk(data, blocks.PROGRAM_LIMIT)
    answer = "file\t%s\t%d\t%d\t%d\n" % (name, number, place, len(rows))
    parts = b"".join(part_line(data, row[0]) for row in rows)
    return answer.encode("ascii") + header_line(data) + blocks.listing(data) + parts


def header_line(data):
    """The header's fields, where the first block is good."""
    fields = blocks.header_fields(data) if len(data) <= blocks.PROGRAM_LIMIT else None
    return b"" if fields is None else b"header\t%d\t%d\t%d\t%d\t%d\t%d\n" % fields


def part_line(data, at):
    lengths = len(blocks.data_part(data, at)), len(blocks.meta_part(data, at))
    return b"part\t%d\t%d\t%d\t%s\n" % (at, *lengths, blocks.chain_name(data, at))


def cut_runs():
    """One file, cut at every length."""
    data = block_files.whole()
    stdout = b"".join(cut_line(data, length) for length in range(len(data) + 1))
    return run_files("cut_runs", [("whole.u3d", data)], stdout)


def cut_line(data, length):
    number, place, rows = blocks.walk(block_files.cut(data, length))
    return b"%d\t%d\t%d\t%d\n" % (length, number, place, len(rows))


def coder_runs():
    """Calls of the bit coder, as scripts tell them."""
    cases = [(case.name + ".calls", case.calls)
             for case in coder_files.cases() + coder_refusals.cases()]
    inputs = [(name, coder_calls.script(calls)) for name, calls in cases]
    stdout = b"".join(call_report(name, calls) for name, calls in cases)
    return run_files("coder_runs", inputs, stdout)


def call_report(name, calls):
    """The coder must agree with the answers worked out by hand, and read what it wrote."""
    try:
        return coder_calls.output(name, calls)
    except coder_calls.Differs as differs:
        sys.exit("%s: %s" % (name, differs))


def mesh_runs():
    """Everything that a mesh's read hands out, for each pair of parts."""
    cases = mesh_files.cases() + mesh_files.mutants()
    inputs = [(case.name, mesh_files.stored(case)) for case in cases]
    stdout = lines("\t".join(map(str, fields)) for case in cases for fields in mesh_report(case))
    return run_files("mesh_runs", inputs, stdout)


def mesh_report(case):
    """The lines of one file. The reader must agree with the answer worked out by hand."""
    found = mesh.read_mesh(case.declaration, case.continuation, mesh_files.filled(case.lengths))
    answer = found.number, found.part, found.place
    if answer != (case.number, case.part, case.place):
        sys.exit("%s: %s, by hand %s" % (case.name, answer, case[1:4]))
    yield "file", case.name
    yield declaration_fields(case.declaration)
    yield "mesh", *answer, *found.counts, found.shading_count
    for name, table in zip(mesh.TABLES, found.tables):
        yield "table", name, len(table), "%08x" % checksum(table)
    if found.counts[mesh.FACES] <= 8:
        for face in range(found.counts[mesh.FACES]):
            yield "face", *found.tables[mesh.FACES][face * mesh.FACE_SIZE:][:mesh.FACE_SIZE]
    if case.cut:
        yield from cut_fields(case)


def declaration_fields(data):
    """The declaration's answer, and every field that it hands out, in file order."""
    number, place, found = mesh.read_declaration(data)
    shadings = [field for shading in found.shadings for field in shading_fields(shading)]
    return ("declaration", number, place, len(found.name), found.chain_index, found.attributes,
            *found.counts, len(found.shadings), *shadings, found.minimum_resolution,
            found.maximum_resolution, *found.quality_factors, *found.inverse_quants,
            *found.normal_parameters, found.bone_count)


def shading_fields(shading):
    """Dimensions of layers that a shading does not have are 0."""
    layers = len(shading.dimensions)
    unused = (0,) * (mesh.LAYER_LIMIT - layers)
    return shading.attributes, layers, *shading.dimensions, *unused, shading.original_id


def checksum(table):
    total = 2166136261
    for word in table:
        total = (total * 16777619 + word) % 2 ** 32
    return total


def cut_fields(case):
    """The answers for each part cut at every length, the other whole."""
    whole = case.declaration, case.continuation
    for part in (mesh.DECLARATION, mesh.CONTINUATION):
        for length in range(len(whole[part]) + 1):
            pair = list(whole)
            pair[part] = pair[part][:length]
            found = mesh.read_mesh(*pair, mesh_files.filled(case.lengths))
            yield "cut", part, length, found.number, found.part, found.place


def read_mesh():
    """The program for people on one sample."""
    data = mesh_files.sample()
    return run_files("read_mesh", [("sample.u3d", data)], mesh.listing(data))


def progressive_runs():
    """Climb texts, and calls of up, down and walks on the meshes that are read with them."""
    cases = climb_files.cases() + climb_walks.cases()
    inputs = [(case.name, climb_calls.stored(case)) for case in cases]
    stdout = lines("\t".join(map(str, fields)) for case in cases for fields in climb_report(case))
    return run_files("progressive_runs", inputs, stdout)


def climb_report(case):
    """The calls must agree with the answers worked out by hand, and with the tally."""
    try:
        return list(climb_calls.output(case))
    except climb_calls.Differs as differs:
        sys.exit("%s: %s" % (case.name, differs))


def climb_mesh():
    """The program for people on one sample."""
    data, text, calls = climb_files.sample()
    inputs = [("sample.u3d", data), ("sample.climb", text)]
    return run_files("climb_mesh", inputs, climb_calls.listing(data, text, calls), [calls])


def write(files):
    for path, data in files.items():
        path.parent.mkdir(parents=True, exist_ok=True)
        path.write_bytes(data)


def differences(files):
    """A line for each stored file that is missing, differs, or isn't made here."""
    for path, data in files.items():
        if not path.is_file():
            yield "missing: %s" % path
        elif path.read_bytes() != data:
            yield "differs: %s" % path
    for folder in sorted({path.parent for path in files if path.parent.name == "data"}):
        for path in sorted(folder.glob("*")):
            if path not in files:
                yield "not made here: %s" % path


def main(arguments):
    if arguments not in ([], ["--check"]):
        sys.exit("usage: make_runs.py [--check]")
    runs = (list_blocks, walk_runs, cut_runs, coder_runs, mesh_runs, read_mesh, progressive_runs,
            climb_mesh)
    files = {path: data for run in runs for path, data in run().items()}
    if not arguments:
        write(files)
        return 0
    found = list(differences(files))
    for line in found:
        print(line)
    return 1 if found else 0


if __name__ == "__main__":
    sys.exit(main(sys.argv[1:]))

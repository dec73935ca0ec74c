#!/usr/bin/env python3
"""Whether the structs of rtp_wire.h, as bindings/described reads them, lie where compilers put them: the size of each,
and the place and the size of each field, by the debugging information (DWARF) of what was compiled with -g.

usage: bindings/test/layouts.py OBJECT..      object files, archives of them, or programs; those of C and Go have the
                                              names of C, and those of Rust what bindings/described/rust.py names them

Prints how many structs were compared, or the first field that lies elsewhere; the status is then 1. It takes pyelftools
(Debian: python3-pyelftools) and pycparser: without these it says so, and nothing is compared.
"""

import io
import subprocess
import sys
from pathlib import Path

sys.dont_write_bytecode = True
sys.path.insert(0, str(Path(__file__).resolve().parent.parent))
from described import header, rust  # noqa: E402


def elf_file():
    try:
        from elftools.elf.elffile import ELFFile
    except ImportError:
        sys.path.append("/usr/lib/python3/dist-packages")
        from elftools.elf.elffile import ELFFile
    return ELFFile


def objects_of(path):
    """The object files of a file, one by one."""
    data = Path(path).read_bytes()
    if not data.startswith(b"!<arch>"):
        return [data]
    names = subprocess.run(["ar", "t", path], stdout=subprocess.PIPE, text=True, check=True).stdout.split()
    given = {"stdout": subprocess.PIPE, "check": True}
    return [subprocess.run(["ar", "p", path, name], **given).stdout for name in names if name.endswith(".o")]


def size_of(die):
    """How many bytes a value of the type has."""
    if "DW_AT_byte_size" in die.attributes:
        return die.attributes["DW_AT_byte_size"].value
    size = size_of(die.get_DIE_from_attribute("DW_AT_type"))
    if die.tag != "DW_TAG_array_type":
        return size
    count = next(it for it in die.iter_children() if it.tag == "DW_TAG_subrange_type").attributes
    return size * (count["DW_AT_count"].value if "DW_AT_count" in count else count["DW_AT_upper_bound"].value + 1)


def layout_of(die):
    """The size of a struct, and by the name of each field its place and its size."""
    fields = {}
    for it in die.iter_children():
        if it.tag == "DW_TAG_member" and "DW_AT_name" in it.attributes:
            place = it.attributes["DW_AT_data_member_location"].value, size_of(it.get_DIE_from_attribute("DW_AT_type"))
            fields[it.attributes["DW_AT_name"].value.decode().rstrip("_")] = place
    return die.attributes["DW_AT_byte_size"].value, fields


def structs_of(path, wanted):
    """The structs of these names in a file, by their names in C."""
    for data in objects_of(path):
        elf = elf_file()(io.BytesIO(data))
        for unit in elf.get_dwarf_info().iter_CUs() if elf.has_dwarf_info() else ():
            for die in unit.iter_DIEs():
                name = die.attributes["DW_AT_name"].value.decode() if "DW_AT_name" in die.attributes else ""
                name = name.rpartition(".")[2]  # in Go the package's comes before it
                if name not in wanted or die.get_parent().tag == "DW_TAG_structure_type":
                    continue
                if die.tag == "DW_TAG_typedef" and "DW_AT_type" in die.attributes:
                    die = die.get_DIE_from_attribute("DW_AT_type")
                if die.tag == "DW_TAG_structure_type" and "DW_AT_byte_size" in die.attributes:
                    yield wanted[name], layout_of(die)


def main():
    try:
        api = header.read()
        elf_file()
    except ImportError as fault:
        print(f"none, which was left out: {fault}")
        return 0
    wanted = {name: it for it in api.structs for name in (it.name, rust.name_of(it.short))}
    compared = set()
    for path in sys.argv[1:]:
        for it, (size, fields) in structs_of(path, wanted):
            said = {f.name: (f.at, f.size) for f in it.fields}
            if size != it.size or fields != said:
                other = sorted(set(fields.items()) ^ set(said.items()))
                print(f"layouts.py: {path}: {it.name} has {size} bytes, and not {it.size}; {other}", file=sys.stderr)
                return 1
            compared.add((path, it.name))
    for path in sys.argv[1:]:
        if not any(compared_of == path for compared_of, _ in compared):
            print(f"layouts.py: {path} has no struct of rtp_wire.h", file=sys.stderr)
            return 1
    print(len(compared))
    return 0


if __name__ == "__main__":
    sys.exit(main())

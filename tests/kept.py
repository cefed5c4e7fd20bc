"""The files that a run program is fed with and held to: written, or compared with what they should be."""
import pathlib
import sys


def others(folder, files, exactly):
    """Files of the folders named by `exactly` that are none of these."""
    there = {str(path.relative_to(folder)) for name in exactly for path in (folder / name).rglob("*") if path.is_file()}
    return there - set(files)


def keep(folder, files, exactly=()):
    """files: name to bytes. Writes them below folder; with --check only says whether they are there as they should be.

    `exactly` names folders below it that hold these files and nothing else.
    """
    folder = pathlib.Path(folder)
    if sys.argv[1:] == ["--check"]:
        there = all((folder / name).is_file() for name in files)
        same = there and all((folder / name).read_bytes() == data for name, data in files.items()) and not others(folder, files, exactly)
        print("as it should be" if same else "a file is not what this script makes")
        sys.exit(0 if same else 1)
    for name in others(folder, files, exactly):
        (folder / name).unlink()
    for name, data in files.items():
        (folder / name).parent.mkdir(parents=True, exist_ok=True)
        (folder / name).write_bytes(data)
    print({name: len(data) for name, data in files.items()} if len(files) < 9 else f"{len(files)} files, {sum(map(len, files.values()))} bytes")

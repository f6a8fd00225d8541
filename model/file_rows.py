"""Worked rows of `imgcopy redo` and `imgcopy restore`, on files that the scripts of rows.py save. checks/rows.py plays
them."""

from typing import NamedTuple

from model.log_format import COMP


class FileRow(NamedTuple):
    """What `imgcopy redo` answers to the log of a row, or `imgcopy restore` to its files, whose names are told.

    `edits` has the bytes that are put at an offset, and what the file is cut to. The wanted answer is a line, or the
    first bytes of the volume in hexadecimal digits, which zeros follow to its end. `undone` has the records that undo
    puts behind the log, as `undo_of` tells them, where they are looked at.
    """

    name: str
    row: str
    names: str
    answer: str
    edits: tuple = ()
    status: int = 2
    undone: tuple = ()

    def files(self, saved):
        files = dict(saved)
        for name, at, digits in self.edits:
            data = bytes.fromhex(digits)
            files[name] = files[name][:at] if digits == "" else files[name][:at] + data + files[name][at + len(data):]
        return files

    def volume(self):
        """The answer tells all pages but for the zeros behind the last one."""
        volume = bytes.fromhex(self.answer)
        return volume + bytes(-len(volume) % 512)


def undo_of(records):
    """What records of undo say: which transaction each is of, and where a Comp leads."""
    return tuple(f"Comp {it.lsn} of {it.transaction}, UndoNxtLSN {it.undo_next}" if it.kind == COMP
                 else f"End {it.lsn} of {it.transaction}" for it in records)


def in_first_format(row):
    """The same row with its log and its archives in the first format, which byte 7 of each says."""
    names = ["log"] if row.names == "redo" else \
        [name for name in row.names.split() if name == "log" or name.startswith("copy-")]
    return row._replace(name=f"{row.name}, in the first format",
                        edits=(*((name, 7, FIRST) for name in names), *row.edits))


def of_first_format(data):
    """The log or the archive with the same value in the first format."""
    return data[:7] + bytes.fromhex(FIRST) + data[8:]


# The characters that name a format, in hexadecimal digits. There is neither a format 0 nor a format 3.
FIRST, NONE, LATER = "31", "30", "33"

INCREMENTS = "two incremental copies of one parent"
CHAIN = "a chain, and a rollback that was begun"
DIRTY = "a page that is dirty all the time"
COPIED = "a change after the copy"
MIXED = "claims of two kinds, all records kept"
LOSERS = "the order of undo"
TAIL = "an unforced tail is kept and undone"
FILES_OF_CHAIN = "log master copy-1 copy-2 copy-3"
VOLUME_OF_CHAIN = "0000000001000000 c002000000000000"

COMMIT = "0400000001000000 c000000000000000" + "00" * 40

ROWS_OF_BOTH_FORMATS = [
    FileRow("a chain from its files", CHAIN, FILES_OF_CHAIN, VOLUME_OF_CHAIN, status=0,
            undone=("Comp 704 of 1, UndoNxtLSN 192", "End 768 of 1")),
    FileRow("claims of two kinds, undone from their files", MIXED, "log master copy-1",
            "0000000001000000 8002000000000000 03", status=0,
            undone=("Comp 576 of 1, UndoNxtLSN 320", "Comp 640 of 1, UndoNxtLSN 192", "End 704 of 1")),
    FileRow("claims of two kinds, undone from their files without the Set", MIXED, "log master copy-1",
            "0000000001000000 0002000000000000 03", (("log", 512, ""),), status=0,
            undone=("Comp 512 of 1, UndoNxtLSN 192", "End 576 of 1")),
    FileRow("an unforced tail, undone from its files", TAIL, "log master copy-1", "0000000001000000 4001000000000000",
            status=0, undone=("Comp 320 of 1, UndoNxtLSN 192", "End 384 of 1")),
    FileRow("three losers from their files", LOSERS, "log master copy-1", "0000000001000000 4003000000000000", status=0,
            undone=("End 576 of 3", "Comp 640 of 1, UndoNxtLSN 384", "Comp 704 of 2, UndoNxtLSN 256", "End 768 of 2",
                    "Comp 832 of 1, UndoNxtLSN 192", "End 896 of 1")),
    FileRow("redo of no records", "a log without records", "redo",
            "0000000001000000" + "00" * 504 + "0100000001000000", status=0),
    FileRow("redo of an Add that wraps", "an Add wraps", "redo", "0000000001000000 c000000000000000", status=0),
    FileRow("redo of a rollback that was begun", CHAIN, "redo", "0000000001000000 8002000000000000 05", status=0),
    FileRow("redo of four records", "four records", "redo", "0000000001000000 c000000000000000" + "00" * 24 + "0c",
            status=0),
    FileRow("a redo point that is too late", DIRTY, "log master copy-1", "0000000001000000",
            (("copy-1", 32, "c000000000000000"),), status=0),
    FileRow("a begin LSN and a redo point that are too late", DIRTY, "log master copy-1", "0000000001000000",
            (("copy-1", 24, "0001"), ("copy-1", 32, "0001")), status=0),
    FileRow("an archive that is cut in a page", COPIED, "log master copy-1", "E36 BadArchive 576",
            (("copy-1", 1000, ""),)),
    FileRow("an archive with a page too few", COPIED, "log master copy-1", "E38 CountDiffers", (("copy-1", 576, ""),)),
    FileRow("an archive with a byte too many", COPIED, "log master copy-1", "E38 CountDiffers",
            (("copy-1", 1088, "00"),)),
    FileRow("a page that is cut, behind one with a byte too many", INCREMENTS, "log master copy-1 copy-2",
            "E38 CountDiffers", (("copy-1", 1000, ""), ("copy-2", 576, "00"))),
    FileRow("a page that is cut, before a whole archive", INCREMENTS, "log master copy-1 copy-2",
            "E36 BadArchive 576", (("copy-1", 1000, ""),)),
    FileRow("a redo point at the log's end", DIRTY, "log master copy-1", "E39 RedoBeyondLog",
            (("copy-1", 24, "0002"), ("copy-1", 32, "0002")), status=1),
    FileRow("a page at the log's end", DIRTY, "log master copy-1", "E40 PageBeyondLog 0", (("copy-1", 72, "0002"),),
            status=1),
    FileRow("an archive that is cut in its header", COPIED, "log master copy-1", "E36 BadArchive 0",
            (("copy-1", 63, ""),)),
    FileRow("an archive without bytes", COPIED, "log master copy-1", "E36 BadArchive 0", (("copy-1", 0, ""),)),
    FileRow("a chain that begins with its second copy", CHAIN, "log master copy-2 copy-1", "E37 ChainBroken 2",
            status=1),
    FileRow("a chain without its second copy", CHAIN, "log master copy-1 copy-3", "E37 ChainBroken 3", status=1),
    FileRow("no archive", CHAIN, "log master", "E37 ChainBroken 0", status=1),
    FileRow("a log of another volume", DIRTY, "log master copy-1", "E37 ChainBroken 1", (("log", 8, "02"),), status=1),
    FileRow("a master of no checkpoint", DIRTY, "log master copy-1", "E35 BadChain 128", (("master", 8, "80"),)),
    FileRow("a master that is misspelt", DIRTY, "log master copy-1", "E30 BadHeader", (("master", 24, "01"),)),
    FileRow("a RecLSN of a Begin", DIRTY, "redo", "E35 BadChain 256", (("log", 280, "40"),)),
    FileRow("a RecLSN of a Begin, restored", DIRTY, "log master copy-1", "E35 BadChain 256", (("log", 280, "40"),)),
    FileRow("an active transaction as rolling", DIRTY, "redo", "E35 BadChain 320", (("log", 344, "02"),)),
    FileRow("a redo point that is not the least", DIRTY, "redo", "E35 BadChain 384", (("log", 408, "c0"),)),
    FileRow("a torn record", "four records", "redo", "E32 Torn 256", (("log", 266, ""),)),
    FileRow("a spare byte", "four records", "redo", "E31 BadRecord 128", (("log", 129, "01"),)),
    FileRow("a page past the count", "four records", "redo", "E31 BadRecord 128", (("log", 152, "01"),)),
    FileRow("the last record again", "four records", "redo", "E31 BadRecord 320",
            (("log", 320, COMMIT + "0001000000000000"),)),
    FileRow("the last record again, with an LSN of its own", "four records", "redo", "E35 BadChain 320",
            (("log", 320, COMMIT + "4001000000000000"),)),
    FileRow("another PrevLSN", "four records", "redo", "E35 BadChain 256", (("log", 264, "80"),)),
    FileRow("another number before", "four records", "redo", "E35 BadChain 128", (("log", 160, "01"),)),
    FileRow("no log", COPIED, "missing master copy-1", "E33 ReadFault"),
    FileRow("no master", COPIED, "log missing copy-1", "E33 ReadFault"),
    FileRow("no file of an archive", CHAIN, "log master copy-1 missing", "E33 ReadFault"),
    FileRow("a folder as archive", CHAIN, "log master copy-1 .", "E33 ReadFault"),
    FileRow("a fault before a file that is missing", CHAIN, "log master copy-2 missing", "E37 ChainBroken 2", status=1),
]

FORMAT_ROWS = [
    FileRow("a log of the first format, and archives of the second", CHAIN, FILES_OF_CHAIN, VOLUME_OF_CHAIN,
            (("log", 7, FIRST),), status=0),
    FileRow("archives of both formats", CHAIN, FILES_OF_CHAIN, VOLUME_OF_CHAIN, (("copy-2", 7, FIRST),), status=0),
    FileRow("redo of a log of no format", "four records", "redo", "E30 BadHeader", (("log", 7, NONE),)),
    FileRow("redo of a log of a later format", "four records", "redo", "E30 BadHeader", (("log", 7, LATER),)),
    FileRow("a log of a later format", CHAIN, FILES_OF_CHAIN, "E30 BadHeader", (("log", 7, LATER),)),
    FileRow("an archive of no format", CHAIN, FILES_OF_CHAIN, "E36 BadArchive 0", (("copy-3", 7, NONE),)),
    FileRow("an archive of a later format", CHAIN, FILES_OF_CHAIN, "E36 BadArchive 0", (("copy-1", 7, LATER),)),
    FileRow("a master record of a second format", CHAIN, FILES_OF_CHAIN, "E30 BadHeader", (("master", 7, "32"),)),
]

FILE_ROWS = [*ROWS_OF_BOTH_FORMATS, *map(in_first_format, ROWS_OF_BOTH_FORMATS), *FORMAT_ROWS]

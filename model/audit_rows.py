"""Worked rows of `imgcopy audit`, on files that the scripts of rows.py save. checks/rows.py plays them."""

from model.file_rows import CHAIN, DIRTY, FIRST, LATER, NONE, FileRow, in_first_format

SOUND = "sound"

ROWS_OF_BOTH_FORMATS = [
    FileRow("a sound copy", DIRTY, "log copy-1", SOUND, status=0),
    FileRow("a redo point past a change", DIRTY, "log copy-1", "E41 Unsound 1 0", (("copy-1", 32, "c0"),), status=1),
    FileRow("a begin LSN and a redo point past a change", DIRTY, "log copy-1", "E41 Unsound 1 0",
            (("copy-1", 24, "0001"), ("copy-1", 32, "0001")), status=1),
    FileRow("a redo point at the log's end, audited", DIRTY, "log copy-1", "E39 RedoBeyondLog",
            (("copy-1", 24, "0002"), ("copy-1", 32, "0002")), status=1),
    FileRow("a page at the log's end, audited", DIRTY, "log copy-1", "E40 PageBeyondLog 0", (("copy-1", 72, "0002"),),
            status=1),
    FileRow("the LSN of no change", DIRTY, "log copy-1", "E41 Unsound 1 0", (("copy-1", 72, "c0"),), status=1),
    FileRow("the LSN of a change, and another number", DIRTY, "log copy-1", "E41 Unsound 1 0",
            (("copy-1", 72, "80"), ("copy-1", 80, "06")), status=1),
    FileRow("the LSN of a change, and its number", DIRTY, "log copy-1", SOUND,
            (("copy-1", 72, "80"), ("copy-1", 80, "05")), status=0),
    FileRow("a log of another volume, audited", DIRTY, "log copy-1", "E37 ChainBroken 1", (("log", 8, "02"),), status=1),
    FileRow("a sound chain", CHAIN, "log copy-1 copy-2 copy-3", SOUND, status=0),
    FileRow("an audit that begins with the second copy", CHAIN, "log copy-2 copy-1", "E37 ChainBroken 2", status=1),
    FileRow("an audit without the second copy", CHAIN, "log copy-1 copy-3", "E37 ChainBroken 3", status=1),
    FileRow("an audit of no archive", CHAIN, "log", "E37 ChainBroken 0", status=1),
    FileRow("an audit of an archive without bytes", CHAIN, "log copy-1", "E36 BadArchive 0", (("copy-1", 0, ""),)),
    FileRow("an audit of no log", CHAIN, "missing copy-1", "E33 ReadFault"),
    FileRow("an audit of a folder", CHAIN, "log copy-1 .", "E33 ReadFault"),
]

FORMAT_ROWS = [
    FileRow("an audit of a log of the first format", CHAIN, "log copy-1 copy-2 copy-3", SOUND, (("log", 7, FIRST),),
            status=0),
    FileRow("an audit of archives of both formats", CHAIN, "log copy-1 copy-2 copy-3", SOUND, (("copy-2", 7, FIRST),),
            status=0),
    FileRow("an audit of a log of no format", DIRTY, "log copy-1", "E30 BadHeader", (("log", 7, NONE),)),
    FileRow("an audit of a log of a later format", DIRTY, "log copy-1", "E30 BadHeader", (("log", 7, LATER),)),
    FileRow("an audit of an archive of no format", DIRTY, "log copy-1", "E36 BadArchive 0", (("copy-1", 7, NONE),)),
    FileRow("an audit of an archive of a later format", CHAIN, "log copy-1 copy-2 copy-3", "E36 BadArchive 0",
            (("copy-3", 7, LATER),)),
]

AUDIT_ROWS = [*ROWS_OF_BOTH_FORMATS, *map(in_first_format, ROWS_OF_BOTH_FORMATS), *FORMAT_ROWS]

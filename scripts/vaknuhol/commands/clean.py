"""Records are removed with what they hold: add them up by `vaknuhol merge` before. Half-written files that killed
runners left are removed too."""
import argparse
import os

from vaknuhol.arguments import Refusal
from vaknuhol.levels import Level, add_file, whole_number
from vaknuhol.recording.kept_patches import folder_of
from vaknuhol.recording.record_folder import FOLDER, UNRECORDED, halves_in, paths_in

NAMES = {"clean": "remove the records of a stand-in's runs"}


def add_words(level: Level, name: str) -> None:
    add_file(level, "program", metavar="PROGRAM", help="the original")
    add_file(level, "--records", metavar="FOLDER", help="the folder of the records, in place of PROGRAM.vak/records")
    level.add_argument("--keep", metavar="N", type=whole_number, help="keep the newest N records")


def do(words: argparse.Namespace) -> int:
    folder = words.records or os.path.join(folder_of(words.program), FOLDER)
    if not os.path.isdir(folder):
        raise Refusal(f"{folder} is not here: no stand-in of {words.program} records its runs there (--records names "
                      "another folder)")
    records, others = paths_in(folder), halves_in(folder)
    old = records[:-words.keep] if words.keep else records
    if os.path.isfile(os.path.join(folder, UNRECORDED)):
        others.append(os.path.join(folder, UNRECORDED))
    for path in (*old, *others):
        os.remove(path)
    print(f"removed {len(old)} of {len(records)} records")
    return 0

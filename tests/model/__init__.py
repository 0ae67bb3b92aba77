"""
Plain models of the format and of what vol_tool is to answer, voxel by voxel and row by row. They are written from the format's
pages and share nothing with the program.
"""
from .answers import cutout, sound, verdict
from .boxes import along, box_in, bytes_of, corners, head_of, meets, spell, stream_of, voxels_in
from .copies import copy_of
from .faults import DAMAGED, DOOR, FEED, INFO, MEMORY, OK, OUTPUT, REQUEST, STORE, USAGE, damaged, printed, refused, stored
from .lists import answer, generated, sum_of
from .shards import Sharding, files_of, rows_of, shard_of
from .updates import update_of
from .volumes import SEGMENTED, SHARDING, Values, Volume, info_of, infos_of, line

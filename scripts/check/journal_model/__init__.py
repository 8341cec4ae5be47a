"""A second reading of what a journal's file stands for, and a model of the disk under it, to hold the built program against.

Nothing of the program is used: text 3 is read by docs/PROTOCOL.md, and what its lines lead to is told by `workbook_model`.
"""

from .course import Course
from .disk import Disk, fronts
from .records import read_record
from .text import START, at_rest, is_at_rest, lined, recovered, repaired, resume_line

__all__ = ["START", "Course", "Disk", "at_rest", "fronts", "is_at_rest", "lined", "read_record", "recovered", "repaired",
           "resume_line"]

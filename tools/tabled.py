"""The cases that `tools/cases` and `../test` run.

They are those of the folder, the examples, and the tables.
"""

from casing import CASES, Case, cases_of, examples
from formed_journals import formed
from formed_scripts import scripts
from judged_journals import judged


def table_cases() -> list[Case]:
    found = [*cases_of(CASES), *examples(), *scripts(), *formed(), *judged()]
    assert len({it.name for it in found}) == len(found)
    return found

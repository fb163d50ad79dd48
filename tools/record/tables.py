"""Which tables of call sites a raise over a stack needs, and where their bytes lie.

A table doesn't say how long it is: it is taken to end where the next one of its object begins, or
with the section or the segment that holds it.
"""

from elf import section_by_headers

TABLES_SECTION = ".gcc_except_table"


def holder_end(found, address):
    """The first address after the section or the segment of an object that holds an address."""
    section = section_by_headers(found, TABLES_SECTION)
    if section is not None and section[0] <= address < sum(section):
        return sum(section)
    for load in found.loads:
        first = found.bias + load.address
        if first <= address < first + load.memory_bytes:
            return first + load.memory_bytes
    return address


def table_range(found, section, fde):
    """The pair of the first address of an FDE's table and the first one after it."""
    later = [other.lsda for other in section.fdes
             if other.lsda is not None and other.lsda > fde.lsda]
    return fde.lsda, min(later + [holder_end(found, fde.lsda)])


def tables_of(pairs, looks):
    """The ranges of the tables of the functions at these addresses, innermost first, each once.

    `pairs` are objects and their Sections.
    """
    ranges = []
    for look in looks:
        for found, section in pairs:
            if found.contains(look):
                fde = section.fde_at(look)
                if fde is not None and fde.lsda is not None:
                    ranges.append(table_range(found, section, fde))
                break
    return list(dict.fromkeys(ranges))

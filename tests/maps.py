"""Maps in GNU ddrescue's format, made from what could not be read."""
from made import PAGE, SECTOR


def unread(size, bad, status="-"):
    """Blocks (position, size, status) over `size` bytes; `bad` names the sectors by page: {page: [sector, ..]}."""
    blocks, end = [], 0
    for at in sorted(page * PAGE + sector * SECTOR for page, sectors in bad.items() for sector in sectors):
        if blocks and end == at:
            blocks[-1] = (blocks[-1][0], blocks[-1][1] + SECTOR, status)
        else:
            blocks += [(end, at - end, "+"), (at, SECTOR, status)]
        end = at + SECTOR
    return [block for block in [*blocks, (end, size - end, "+")] if block[1]]


def text(blocks, head="0x0 ? 1", number="0x{:08X}".format):
    """A map's lines; `number` writes a position or a size."""
    lines = ["# Mapfile", head] + [f"{number(at)}  {number(size)}  {status}" for at, size, status in blocks]
    return "".join(line + "\n" for line in lines)

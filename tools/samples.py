"""What the programs that print vectors and lives share: the cells of a sample, and the digest of cells (docs/PROGRAMS.md)."""


def sown(count):
    return [(k * k // 3 + 5 * k + k // 7 + 7) % 256 for k in range(count)]


def digest(cells):
    d = 0
    for cell in cells:
        d = (31 * d + cell + 1) % 65521
    return d

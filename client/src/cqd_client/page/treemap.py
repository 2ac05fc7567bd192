"""The folders of a project as a treemap: areas are lines, and tints the share of them that is duplicated."""
from __future__ import annotations

from dataclasses import dataclass, field
from typing import Iterable, Iterator, Mapping

from ..findings import File

# More cells than this are too small to read; a cell below this share of all lines is not divided further.
MOST_CELLS = 36
LEAST_DIVIDED = 0.04

# The widths and heights that the two layouts are made for, of a desk and of a phone.
WIDE = (1200.0, 380.0)
NARROW = (328.0, 460.0)

# A name is shown in a cell of at least this many pixels, and the share below it in one of twice the height.
LEAST_WIDTH, LEAST_HEIGHT = 52.0, 24.0

# The shares, in hundredths of a percent, from which the tints 1 to 5 apply.
TINTS = (1, 300, 1_000, 2_000, 4_000)


@dataclass
class Folder:
    """A folder with the sums over all files below it."""
    path: str
    lines: int = 0
    duplicated: int = 0
    files: int = 0
    own_lines: int = 0
    own_duplicated: int = 0
    own_files: int = 0
    folders: dict[str, "Folder"] = field(default_factory=dict)

    @property
    def share(self) -> int:
        """The duplicated share of its lines, in hundredths of a percent."""
        return self.duplicated * 10_000 // self.lines if self.lines else 0


@dataclass(frozen=True)
class Rectangle:
    """In percent of the whole."""
    left: float
    top: float
    width: float
    height: float


@dataclass(frozen=True)
class Cell:
    """A folder on the map, or only the files directly in it, with where it lies in both layouts."""
    folder: Folder
    is_own: bool
    tint: int
    wide: Rectangle
    narrow: Rectangle

    @property
    def room(self) -> str:
        """The classes of a cell that has no room for its name (0), or only for that (1), in either layout."""
        return f" wide-{room(self.wide, WIDE)} narrow-{room(self.narrow, NARROW)}"


def room(rectangle: Rectangle, layout: tuple[float, float]) -> int:
    width, height = rectangle.width * layout[0] / 100, rectangle.height * layout[1] / 100
    return 0 if width < LEAST_WIDTH or height < LEAST_HEIGHT else 1 if height < 2 * LEAST_HEIGHT else 2


def folders_of(files: Iterable[File], duplicated: Mapping[str, int]) -> Folder:
    """The tree of folders. A folder that holds only one folder is shown by that one."""
    root = Folder("")
    for file in files:
        folder = root
        parts = file.path.split("/")[:-1]
        count(folder, file, duplicated)
        for depth, name in enumerate(parts, 1):
            folder = folder.folders.setdefault(name, Folder("/".join(parts[:depth])))
            count(folder, file, duplicated)
        folder.own_lines += file.lines
        folder.own_duplicated += duplicated.get(file.path, 0)
        folder.own_files += 1
    return root


def count(folder: Folder, file: File, duplicated: Mapping[str, int]) -> None:
    folder.lines += file.lines
    folder.duplicated += duplicated.get(file.path, 0)
    folder.files += 1


def parts_of(folder: Folder) -> list[Folder]:
    """What a cell of the folder is divided into: its folders, and the files directly in it as a folder without folders."""
    parts = [below for below in folder.folders.values() if below.lines]
    if folder.own_lines:
        parts.append(Folder(folder.path, folder.own_lines, folder.own_duplicated, folder.own_files))
    return parts


def divided(root: Folder) -> list[Folder]:
    """The folders of the map: the largest is divided again and again, while there is room for its parts."""
    cells = [root] if root.lines else []
    while True:
        open_cells = [cell for cell in cells if cell.folders
                      and (len(parts_of(cell)) == 1 or cell.lines >= LEAST_DIVIDED * root.lines)
                      and len(cells) - 1 + len(parts_of(cell)) <= MOST_CELLS]
        if not open_cells:
            return cells
        largest = max(open_cells, key=lambda cell: cell.lines)
        cells.remove(largest)
        cells.extend(parts_of(largest))


def tint(folder: Folder) -> int:
    return sum(folder.share >= least for least in TINTS)


def squarified(sizes: list[float], width: float, height: float) -> Iterator[tuple[float, float, float, float]]:
    """Rectangles of these areas, which fill the whole and are as near to squares as rows of them can be.

    After Bruls, Huizing and van Wijk, "Squarified Treemaps", 2000. The sizes fall, and their sum is the area.
    """
    left = top = 0.0
    begin = 0
    while begin < len(sizes):
        side = min(width, height)
        end = begin + 1
        while end < len(sizes) and worst(sizes[begin:end + 1], side) <= worst(sizes[begin:end], side):
            end += 1
        depth = sum(sizes[begin:end]) / side
        along = 0.0
        for size in sizes[begin:end]:
            length = size / depth
            yield (left, top + along, depth, length) if width >= height else (left + along, top, length, depth)
            along += length
        if width >= height:
            left, width = left + depth, width - depth
        else:
            top, height = top + depth, height - depth
        begin = end


def worst(row: list[float], side: float) -> float:
    """The ratio of the longer to the shorter side of the row's most stretched rectangle."""
    total = sum(row)
    return max(side * side * max(row) / (total * total), total * total / (side * side * min(row)))


def placed(folders: list[Folder], layout: tuple[float, float]) -> list[Rectangle]:
    width, height = layout
    total = sum(folder.lines for folder in folders)
    sizes = [folder.lines / total * width * height for folder in folders]
    return [Rectangle(left / width * 100, top / height * 100, across / width * 100, down / height * 100)
            for left, top, across, down in squarified(sizes, width, height)]


def cells_of(files: Iterable[File], duplicated: Mapping[str, int]) -> list[Cell]:
    """The cells of the map, the largest first."""
    root = folders_of(files, duplicated)
    folders = sorted(divided(root), key=lambda folder: -folder.lines)
    if not folders:
        return []
    has_own = {folder.path for folder in folders if folder.own_lines == 0 and not folder.folders}
    return [Cell(folder, folder.path in has_own, tint(folder), wide, narrow)
            for folder, wide, narrow in zip(folders, placed(folders, WIDE), placed(folders, NARROW))]

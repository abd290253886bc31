"""Tawqeshim for Python: input-output sheets, production, prices and multipliers of a region, in whole numbers.

Each function is a call of the shared library libtawqeshim.so, whose functions are proved. scripts/shared-library builds it as
target/libtawqeshim.so of the repository; the environment variable TAWQESHIM_LIBRARY may name another file.

A table has n sectors, 1 to 40, counted from 0. Amounts are whole numbers of one money unit. Shares and coefficients are whole millionths.
Input coefficients and the shares of value added and imports are to the nearest millionth, halves upward; every other quotient is rounded
down.

    coefficients             from a table to its sheets: coefficients, shares, and the demand for domestic goods
    domestic_demand          from a final demand, as that with a scheme in it, to the demand for domestic goods
    aggregate                from a table to one with fewer sectors: groups of sectors are merged
    permute                  from a table to the same in another order of its sectors, and back
    production               from a demand for domestic goods to production
    impact                   the rise of production from one demand to a second: what a scheme adds
    price                    from direct price rises to settled ones
    implied_demand           from production back to the demand behind it, below 0 in a sector that is short
    induced                  value added and imports that a production induces
    inverse, row             the Leontief inverse with its ratios; a row of a sheet
    read_table, write_table  from the bytes of a table file to its table, and back
    page                     from the bytes of a table file to the printed sheet

The worked table has two sectors:

>>> flows = [[100, 400],
...          [300, 600]]
>>> final_demand, exports, imports = [500, 900], [250, 560], [250, 360]
>>> sheets = coefficients(flows, final_demand, exports, imports, [600, 1000], [1000, 2000])
>>> sheets.domestic, sheets.demand
([75000, 150000, 240000, 240000], [625, 1280])
>>> made = production(sheets.domestic, sheets.demand)
>>> made
Production(amounts=[999, 1999], rounds=9)
>>> induced(sheets.inputs, sheets.imports, sheets.value_added, final_demand, made.amounts)
Induced(value_added=[599, 999], imports=[249, 359])

What goes in
    A column is n numbers in the order of the sectors. A matrix is n rows of n numbers, or its n * n numbers in one piece, row by row.
    Both are taken from a list or another sequence, from a buffer of numbers, as array('q') or a memoryview, and from anything that numpy
    makes an array of, as a Series or a DataFrame of pandas; labels are not looked at. numpy is never imported here.
    A number is an integer from 0 to 2**64 - 1, or a float that is whole and below 2**53. A bool is no number. A cell that is no such
    number, be it a fraction, below 0, masked or missing, raises TypeError or ValueError, which names the argument and the cell:

    >>> production(sheets.domestic, [625, -1])
    Traceback (most recent call last):
    ValueError: demand[1] is -1, below 0

    What is no column or matrix of numbers, be it a dict, a set, a string, bytes, or an array of another kind or shape, raises an error
    that names the argument alone:

    >>> production(sheets.domestic, {0: 625, 1: 1280})
    Traceback (most recent call last):
    TypeError: demand is a dict, whose members are no cells in order

    Cells are copied for the call and never changed.

What comes out
    Lists of integers, in a named tuple where there are several or a count beside them. Only those of `implied_demand` may be below 0. A
    matrix is one list, row by row; `row` takes a row out of it. A table file and a page are bytes.

n and budget
    The number of sectors is taken from the length of a column, or from the sheet where there is none; `n` states it. Of a Table it is
    `sectors`. `budget` is the number of rounds allowed: PRODUCTION_BUDGET or PRICE_BUDGET unless stated. These always suffice: question 9
    refuses only where fewer are allowed.

Refusals
    A call asks questions of what it is given. The first whose answer is no raises Refused, with the number of the question and a place:

    >>> production(sheets.domestic, sheets.demand, budget=8)
    Traceback (most recent call last):
    tawqeshim.Refused: question 9, place 0: do the rounds settle within the budget?

    Question 2 has no place of its own, so its error says which list has which length:

    >>> production(sheets.domestic, [625, 1280, 0])
    Traceback (most recent call last):
    tawqeshim.Refused: question 2, place 0: has every list its exact length? n is 3, the length of demand; domestic has length 4, not 9
"""
import ctypes
import math
import os
import reprlib
import sys
from array import array
from collections.abc import Iterator, Mapping, Sequence, Set
from numbers import Integral
from pathlib import Path
from typing import Any, Callable, NamedTuple, NoReturn, Optional, Protocol, TypeVar, Union, cast, overload

# tawqeshim/py.typed, beside this file, tells type checkers that it is typed. Python imports this file: the folder has no __init__.py.
__version__ = "4.1.0"
__all__ = ["PRODUCTION_BUDGET", "PRICE_BUDGET", "QUESTIONS", "Refused", "Coefficients", "Production", "Impact", "Prices", "Induced",
           "Inverse", "Table", "Aggregate", "Permuted", "coefficients", "domestic_demand", "aggregate", "permute", "production", "impact",
           "price", "implied_demand", "induced", "inverse", "row", "read_table", "write_table", "page"]

# The rounds that always suffice: of production and impact, and of price and inverse.
PRODUCTION_BUDGET = 1400
PRICE_BUDGET = 1400

QUESTIONS: dict[int, str] = {
    1: "is n from 1 to 40?",
    2: "has every list its exact length?",
    3: "is every amount within 1,000,000,000 and every share within one?",
    4: "does every column balance?",
    5: "does every row balance?",
    6: "are a sector's imports at most its domestic need?",
    7: "is every column sum of domestic coefficients at most 950,000?",
    8: "is every demand, direct rise or total of a production within its limit?",
    9: "do the rounds settle within the budget?",
    10: "reserved, no longer asked: does the production leave every sector's demand at 0 or above?",
    11: "is the record's kind 1 to 10, and its body whole?",
    12: "is the first record kind 1 with n from 1 to 40, and no later one?",
    13: "is every sector byte from 1 to n?",
    14: "is the cell named for the first time?",
    15: "does kind 8 come, with no byte after it?",
    16: "are a sector's exports and adjustment together within 1,000,000,000?",
    17: "is the second demand nowhere below the first?",
    18: "is every sector in exactly one group, no group empty and no bit at n or above set?",
    19: "is every merged amount, and merged exports and adjustment together, within 1,000,000,000?",
    20: "is every entry of the list of sectors below n, and none a repeat of an earlier one?",
}


class _Short(type):
    """A class of which `dir` and `help` show what it defines by a name of its own, and not what every tuple or exception has."""

    def __dir__(cls) -> list[str]:
        return [name for name in vars(cls) if not name.startswith("_")]


_Record = TypeVar("_Record", bound="tuple[Any, ...]")


def _record(**meanings: str) -> Callable[[type[_Record]], type[_Record]]:
    """Documents the fields of a named tuple, and makes `help` of it short."""
    def short(named: type[_Record]) -> type[_Record]:
        for field, meaning in meanings.items():
            getattr(named, field).__doc__ = meaning
        return cast("type[_Record]", _Short(named.__name__, named.__bases__, dict(vars(named))))
    return short


class Refused(Exception, metaclass=_Short):
    """A refusal. `number` is the number of the first question whose answer is no, `place` its place, and `question` its text. `detail` says
    for question 2 which list has which length, and for question 19 which group has which sum; otherwise it is empty."""

    def __init__(self, number: int, place: int) -> None:
        super().__init__(number, place)
        self.number = number
        self.place = place
        self.question = QUESTIONS[number]
        self.detail = ""

    def __str__(self) -> str:
        return f"question {self.number}, place {self.place}: {self.question} {self.detail}".rstrip()


@_record(inputs="input coefficients, a matrix, in millionths", value_added="value shares, in millionths",
         imports="import shares, in millionths", domestic="domestic coefficients, a matrix, in millionths",
         demand="the demand for domestic goods, in the money unit of the table")
class Coefficients(NamedTuple):
    """The sheets of a table."""

    inputs: list[int]
    value_added: list[int]
    imports: list[int]
    domestic: list[int]
    demand: list[int]


@_record(amounts="the production of each sector", rounds="the count of rounds")
class Production(NamedTuple):
    """A settled production."""

    amounts: list[int]
    rounds: int


@_record(rises="the rise of each sector's production", rounds="the larger count of rounds of the two demands")
class Impact(NamedTuple):
    """What a second demand adds to the production of a first."""

    rises: list[int]
    rounds: int


@_record(rises="the price rise of each sector, in millionths", rounds="the count of rounds")
class Prices(NamedTuple):
    """Settled price rises."""

    rises: list[int]
    rounds: int


@_record(value_added="the value added of each sector", imports="the imports of each sector's goods")
class Induced(NamedTuple):
    """Value added and imports that a production induces."""

    value_added: list[int]
    imports: list[int]


@_record(cells="the inverse, a matrix, in millionths", power="the power of dispersion of each sector, in millionths",
         sensitivity="the sensitivity of dispersion of each sector, in millionths", rounds="the largest count of rounds of a column")
class Inverse(NamedTuple):
    """The Leontief inverse with its ratios."""

    cells: list[int]
    power: list[int]
    sensitivity: list[int]
    rounds: int


@_record(sectors="n, the number of sectors", named="how many cells its file names; of a table that is from no file, how many are not 0",
         flows="a matrix: in row i and column j, what sector j buys from sector i",
         final_demand="final demand inside the region for each sector's goods", exports="exports of each sector's goods",
         imports="imports of each sector's goods, as positive numbers", value_added="value added of each sector",
         production="production of each sector",
         adjustment="adjustment item of each sector, the tax on indirect exports",
         rises="a production rise of each sector, which no figure uses")
class Table(NamedTuple):
    """A table, with what else a table file holds. `Table.of` makes one of lists."""

    sectors: int
    named: int
    flows: list[int]
    final_demand: list[int]
    exports: list[int]
    imports: list[int]
    value_added: list[int]
    production: list[int]
    adjustment: list[int]
    rises: list[int]

    @classmethod
    def of(cls, flows: "Matrix", final_demand: "Column", exports: "Column", imports: "Column", value_added: "Column",
           production: "Column", adjustment: "Optional[Column]" = None, rises: "Optional[Column]" = None, *,
           n: Optional[int] = None) -> "Table":
        """A table of lists, arrays or frames, each cell checked. The adjustment and the rises are zeros where they are left out. `named`
        counts the cells that are not 0.

        >>> table = Table.of([[1]], [4], [0], [0], [5], [6], [1])
        >>> table.adjustment, table.rises, table.named
        ([1], [0], 5)
        """
        sectors, slices = _listed(flows, {"final_demand": final_demand, "exports": exports, "imports": imports,
                                          "value_added": value_added, "production": production},
                                  {"adjustment": adjustment, "rises": rises}, n)
        cells = [amounts[:] for amounts in slices.values()]
        return cls(sectors.n, sum(amount != 0 for amounts in cells for amount in amounts), *cells)


@_record(table="the merged table", sizes="how many sectors each group took in")
class Aggregate(NamedTuple):
    """A table whose sectors are merged."""

    table: Table
    sizes: list[int]


@_record(table="the table in the new order", inverse="the place to which each old sector came, which is the list for the way back")
class Permuted(NamedTuple):
    """A table whose sectors are in another order."""

    table: Table
    inverse: list[int]


class SupportsArray(Protocol):
    """An array of numpy, or what numpy makes one of."""

    def __array__(self, dtype: Any = None) -> Any: ...


# What a caller may give; a buffer of numbers counts as a sequence of them.
Column = Union[Sequence[float], SupportsArray]
Matrix = Union[Column, Sequence[Column]]
Groups = Union[Column, Sequence[Union[float, Column]]]

_SECTORS = 40
_LAST_BIT = 63
_MARKS = 47
_FILE = 12883
_PAGE = 2851
_LARGEST = 2**64 - 1
_EXACT_FLOATS = 2.0**53
_AMOUNT = 10**9
_MATRICES = ("flows", "inputs", "domestic")

# Numbers for the library, and numbers of it that may be below 0.
_Slice = ctypes.Array[ctypes.c_uint64]
_SignedSlice = ctypes.Array[ctypes.c_int64]


# ---- the library

def _load() -> ctypes.CDLL:
    """The library, of this module's version."""
    built = Path(__file__).resolve().parent.parent / "target" / "libtawqeshim.so"
    path = Path(os.environ.get("TAWQESHIM_LIBRARY") or built).absolute()
    advice = "run scripts/shared-library to build it, or set TAWQESHIM_LIBRARY to the path of a library that was built"
    if not path.is_file():
        raise ImportError(f"there is no library {path}: {advice}", path=str(path))
    try:
        library = ctypes.CDLL(str(path))
    except OSError as error:
        raise ImportError(f"{path} cannot be loaded as a library ({error}): {advice}", path=str(path)) from None
    version = _version(library)
    if version is None:
        raise ImportError(f"{path} is another library, or one before version 1.0.0: {advice}", path=str(path))
    if version != __version__:
        raise ImportError(f"{path} has version {version}, and this module has {__version__}: {advice}", path=str(path))
    return library


def _version(library: ctypes.CDLL) -> Optional[str]:
    """The version that the library states, if it is a library of Tawqeshim."""
    try:
        text = ctypes.c_char.in_dll(library, "tawqeshim_version")
    except ValueError:
        return None
    return ctypes.string_at(ctypes.addressof(text)).decode("ascii", "replace")


_LIBRARY = _load()


# ---- numbers

def _whole(name: str, value: Any, largest: int = _LARGEST) -> int:
    """The value as an integer from 0 to the largest; otherwise an error that names it."""
    if isinstance(value, float):
        value = _whole_float(name, value)
    if not isinstance(value, Integral) or isinstance(value, bool):
        raise TypeError(f"{name} is {reprlib.repr(value)}, not a whole number")
    number = int(value)
    if number < 0:
        raise ValueError(f"{name} is {_shown(number)}, below 0")
    if number > largest:
        raise ValueError(f"{name} is {_shown(number)}, above {largest}")
    return number


def _whole_float(name: str, value: float) -> int:
    if not value.is_integer():
        raise ValueError(f"{name} is {value}, not a whole number")
    if value >= _EXACT_FLOATS:
        raise ValueError(f"{name} is {value}: a float of 2**53 or above need not be the number that was meant; give an integer")
    return int(value)


def _shown(number: int) -> str:
    """The number, unless it is too long to read."""
    bits = number.bit_length()
    return str(number) if bits <= 128 else f"a number of {bits} bits"


# ---- cells

class _Cells(NamedTuple):
    """A buffer of unsigned 64-bit numbers, one after the other, and its dimensions: one, or rows and columns."""

    packed: Any
    shape: tuple[int, ...]


def _column(name: str, cells: "Column") -> _Slice:
    """A column for the library."""
    return _copied(_taken(name, cells, 1).packed)


def _matrix(name: str, cells: "Matrix") -> _Slice:
    """A matrix for the library, row by row. One that was given in rows has as many rows as columns."""
    taken = _taken(name, cells, 2)
    if taken.shape[0] != taken.shape[-1]:
        raise ValueError(f"{name} has {taken.shape[0]} rows of {taken.shape[1]} cells: a matrix has as many rows as columns")
    return _copied(taken.packed)


def _words(groups: "Groups") -> _Slice:
    """Groups of sectors for the library, a word each."""
    return _copied(_taken("groups", groups, 1, _word).packed)


def _word(name: str, group: Any) -> int:
    """A group as a word with a bit for each sector: it is given as that word, or by its sectors."""
    if not hasattr(group, "__len__"):
        return _whole(name, group)
    word = 0
    for k, sector in enumerate(_column(name, group)):
        bit = 1 << _whole(f"{name}[{k}]", sector, _LAST_BIT)
        if word & bit:
            raise ValueError(f"{name} names sector {sector} twice")
        word |= bit
    return word


def _copied(packed: Any) -> _Slice:
    return (ctypes.c_uint64 * (memoryview(packed).nbytes // 8)).from_buffer_copy(packed)


def _taken(name: str, cells: Any, dimensions: int, cell: Callable[[str, Any], int] = _whole) -> _Cells:
    """The cells of what a caller gives, each checked, in at most so many dimensions. `cell` makes a number of one, or an error."""
    if isinstance(cells, (list, tuple)):
        return _from_sequence(name, cells, dimensions, cell)
    if isinstance(cells, (str, bytes, bytearray, Mapping, Set)):
        raise TypeError(f"{name} is a {type(cells).__name__}, whose members are no cells in order")
    numpy = sys.modules.get("numpy")
    if numpy and (hasattr(cells, "__array__") or hasattr(cells, "__array_interface__")):
        return _from_array(name, cells, dimensions, numpy, cell)
    try:
        view = memoryview(cells)
    except TypeError:
        view = None
    if view is not None:
        return _from_buffer(name, view, dimensions)
    if isinstance(cells, Sequence):
        return _from_sequence(name, list(cells), dimensions, cell)
    raise TypeError(f"{name} is a {type(cells).__name__}, not a sequence, buffer or array of numbers")


def _from_sequence(name: str, cells: Sequence[Any], dimensions: int, cell: Callable[[str, Any], int]) -> _Cells:
    """Cells of a list or a tuple. If matrices are allowed and its first member has a length, its members are rows."""
    if dimensions == 2 and cells and hasattr(cells[0], "__len__"):
        return _from_rows(name, cells)
    shape = (len(cells),)
    return _Cells(_packed(name, cells, shape, cell), shape)


def _from_rows(name: str, rows: Sequence[Any]) -> _Cells:
    taken = [_taken(f"{name}[{i}]", row, 1) for i, row in enumerate(rows)]
    (columns,) = taken[0].shape
    for i, row in enumerate(taken):
        if row.shape != (columns,):
            raise ValueError(f"{name}[{i}] has {row.shape[0]} cells, and {name}[0] has {columns}")
    return _Cells(b"".join(row.packed for row in taken), (len(rows), columns))


def _from_buffer(name: str, view: memoryview, dimensions: int) -> _Cells:
    """Cells of a buffer of integers of any width, or of floats, in the order of its rows."""
    _check_dimensions(name, view.ndim, dimensions)
    code = _native_code(view)
    if code is None:
        raise TypeError(f"{name} is a buffer of format {view.format!r}, not of numbers")
    numbers, shape = array(code, view.tobytes()), view.shape or ()
    return _Cells(numbers if code == "Q" else _packed(name, numbers, shape), shape)


def _native_code(view: memoryview) -> Optional[str]:
    """The code that `array` has for a buffer's numbers: by its letter whether they have a sign, by their size their width."""
    letter = view.format.lstrip("@=<")
    if letter in ("f", "d"):
        return letter
    if letter not in tuple("bBhHiIlLqQnN"):
        return None
    code = {1: "B", 2: "H", 4: "I", 8: "Q"}[view.itemsize]
    return code if letter.isupper() else code.lower()


def _from_array(name: str, given: Any, dimensions: int, numpy: Any, cell: Callable[[str, Any], int]) -> _Cells:
    """Cells of an array, all of them checked and converted at once by numpy."""
    cells = numpy.asarray(given)
    _check_dimensions(name, cells.ndim, dimensions)
    if isinstance(given, numpy.ma.MaskedArray) and numpy.ma.is_masked(given):
        masked = int(numpy.ma.getmaskarray(given).argmax())
        raise ValueError(f"{_place(name, cells.shape, masked)} is masked")
    kind = cells.dtype.kind
    if kind == "O":
        return _from_sequence(name, cells.tolist(), dimensions, cell)
    if kind not in "iuf":
        raise TypeError(f"{name} is an array of {cells.dtype}, not of numbers")
    if kind != "u":
        wrong = cells < 0 if kind == "i" else _wrong_floats(cells, numpy)
        if wrong.any():
            k = int(wrong.argmax())
            _refuse_cell(_place(name, cells.shape, k), cells.flat[k])
    return _Cells(numpy.ascontiguousarray(cells, dtype=numpy.uint64), cells.shape)


def _wrong_floats(cells: Any, numpy: Any) -> Any:
    """Where floats of any width are no whole number from 0 to 2**53 - 1. A comparison with nan is false."""
    with numpy.errstate(all="ignore"):
        floats = cells.astype(numpy.float64)
        return ~((floats == cells) & (floats >= 0) & (floats < _EXACT_FLOATS) & (floats == numpy.floor(floats)))


def _refuse_cell(name: str, value: Any) -> NoReturn:
    """The error for a number of numpy that is known to be wrong."""
    _whole(name, float(value) if value.dtype.kind == "f" else int(value))
    raise ValueError(f"{name} is {value}, not a whole number")


def _check_dimensions(name: str, given: int, most: int) -> None:
    if not 1 <= given <= most:
        wanted = "1" if most == 1 else "1 or 2"
        raise ValueError(f"{name} has {given} dimensions, not {wanted}")


def _place(name: str, shape: tuple[int, ...], k: int) -> str:
    """The name of the cell that comes after k others, row by row."""
    return f"{name}[{k}]" if len(shape) == 1 else f"{name}[{k // shape[1]}][{k % shape[1]}]"


def _packed(name: str, numbers: Any, shape: tuple[int, ...], cell: Callable[[str, Any], int] = _whole) -> "array[int]":
    """A list or an array of numbers as unsigned 64-bit numbers, each checked."""
    if set(map(type, numbers)) <= {int}:
        try:
            return array("Q", numbers)
        except OverflowError:
            pass  # the number is named below
    return array("Q", [cell(_place(name, shape, k), number) for k, number in enumerate(numbers)])


# ---- calls

class _Sectors(NamedTuple):
    """The number of sectors, and how an error tells of it."""

    n: int
    told: str


def _size(n: Optional[int], name: str, column: _Slice) -> _Sectors:
    """The number of sectors: the length of a column, unless n states it."""
    return _stated(n) if n is not None else _Sectors(len(column), f"n is {len(column)}, the length of {name}")


def _side(n: Optional[int], name: str, sheet: _Slice) -> _Sectors:
    """The number of sectors of a matrix: the root of its count of cells, unless n states it."""
    root = math.isqrt(len(sheet))
    return _stated(n) if n is not None else _Sectors(root, f"n is {root}, the root of the length of {name}, rounded down")


def _stated(n: int) -> _Sectors:
    whole = _whole("n", n)
    return _Sectors(whole, f"n is {whole}")


def _new_column(n: int) -> _Slice:
    """A column of zeros. Its length where n is above 40 does not matter: question 1 is asked first, of groups question 2."""
    return (ctypes.c_uint64 * min(n, _SECTORS))()


def _new_signed_column(n: int) -> _SignedSlice:
    return (ctypes.c_int64 * min(n, _SECTORS))()


def _new_matrix(n: int) -> _Slice:
    return (ctypes.c_uint64 * (min(n, _SECTORS) ** 2))()


def _columns(columns: "dict[str, Column]", others: "dict[str, Optional[Column]]",
             n: Optional[int]) -> tuple[_Sectors, dict[str, _Slice]]:
    """The slices of columns, final demand among them. Others that are left out are n zeros."""
    slices = {name: _column(name, cells) for name, cells in columns.items()}
    sectors = _size(n, "final_demand", slices["final_demand"])
    for name, cells in others.items():
        slices[name] = _new_column(sectors.n) if cells is None else _column(name, cells)
    return sectors, slices


def _listed(flows: "Matrix", columns: "dict[str, Column]", others: "dict[str, Optional[Column]]",
            n: Optional[int]) -> tuple[_Sectors, dict[str, _Slice]]:
    """The slices of a table that is given in lists."""
    sectors, slices = _columns(columns, others, n)
    return sectors, {"flows": _matrix("flows", flows), **slices}


def _tabled(table: Any, last: str) -> tuple[_Sectors, dict[str, _Slice]]:
    """The slices of a Table, up to the column of this name."""
    if not isinstance(table, Table):
        raise TypeError(f"table is a {type(table).__name__}, not a Table: Table.of makes one of lists")
    names = Table._fields[3:Table._fields.index(last) + 1]
    columns = {name: _column(name, getattr(table, name)) for name in names}
    slices = {"flows": _matrix("flows", table.flows), **columns}
    n = _whole("sectors", table.sectors)
    return _Sectors(n, f"n is {n}, the sectors of the table"), slices


def _budget(budget: int) -> ctypes.c_uint32:
    return ctypes.c_uint32(_whole("budget", budget, 2**32 - 1))


def _file(file: Any) -> "ctypes.Array[ctypes.c_uint8]":
    """The bytes of a file for the library."""
    try:
        view = memoryview(file)
    except TypeError:
        raise TypeError(f"file is a {type(file).__name__}, not the bytes of a table file") from None
    if view.itemsize != 1:
        raise TypeError(f"file is a buffer of format {view.format!r}, not of bytes")
    return (ctypes.c_uint8 * view.nbytes).from_buffer_copy(view.tobytes())


def _call(name: str, *words: Any) -> None:
    """Calls the library. An int is a size; an array is its start and its length."""
    given: list[Any] = []
    for word in words:
        given.append(ctypes.c_size_t(word) if isinstance(word, int) else word)
        if isinstance(word, ctypes.Array):
            given.append(ctypes.c_size_t(len(word)))
    getattr(_LIBRARY, "tawqeshim_" + name)(*given)


def _ask(name: str, *words: Any, counts: Sequence[Any] = ()) -> None:
    """Calls the library, and raises its refusal."""
    number, place = ctypes.c_uint8(), ctypes.c_size_t()
    _call(name, *words, *map(ctypes.byref, (number, place, *counts)))
    if number.value:
        raise Refused(number.value, place.value)


def _ask_of(name: str, sectors: _Sectors, slices: dict[str, _Slice], *words: Any, counts: Sequence[Any] = ()) -> None:
    """Calls the library with a number of sectors and slices by name, and raises its refusal, with the detail that these tell."""
    try:
        _ask(name, sectors.n, *slices.values(), *words, counts=counts)
    except Refused as no:
        if no.number == 2:
            no.detail = "; ".join([sectors.told, *_wrong_lengths(sectors.n, slices)])
        elif no.number == 19:
            no.detail = next(_sums_above(sectors.n, slices), "")
        raise


def _wrong_lengths(n: int, slices: dict[str, _Slice]) -> Iterator[str]:
    """The lists that have not their length: n * n of a matrix, 1 to n of groups, otherwise n."""
    for name, cells in slices.items():
        length = n * n if name in _MATRICES else n
        if name == "groups" and not 1 <= len(cells) <= n:
            yield f"groups has length {len(cells)}, not 1 to {n}"
        elif name != "groups" and len(cells) != length:
            yield f"{name} has length {len(cells)}, not {length}"


def _sums_above(n: int, slices: dict[str, _Slice]) -> Iterator[str]:
    """The sums of merging that are above the limit of an amount, group by group. They are added up here for the error alone. Exports and
    adjustment together are at most production, by questions 5 and 6, so where their sum is above the limit that of production is too."""
    groups = [[i for i in range(n) if word >> i & 1] for word in slices["groups"]]
    flows = slices["flows"]
    for k, group in enumerate(groups):
        sums = {f"flows from group {k} to group {l}": sum(flows[i * n + j] for i in group for j in buying)
                for l, buying in enumerate(groups)}
        sums.update({f"{name} in group {k}": sum(cells[i] for i in group)
                     for name, cells in slices.items() if name not in ("flows", "groups")})
        yield from (f"the sum of {what} is {amount:,}" for what, amount in sums.items() if amount > _AMOUNT)


@overload
def coefficients(flows: Table, /) -> Coefficients: ...


@overload
def coefficients(flows: "Matrix", final_demand: "Column", exports: "Column", imports: "Column", value_added: "Column",
                 production: "Column", adjustment: "Optional[Column]" = None, *, n: Optional[int] = None) -> Coefficients: ...


def coefficients(flows: "Union[Table, Matrix]", final_demand: "Optional[Column]" = None, exports: "Optional[Column]" = None,
                 imports: "Optional[Column]" = None, value_added: "Optional[Column]" = None, production: "Optional[Column]" = None,
                 adjustment: "Optional[Column]" = None, *, n: Optional[int] = None) -> Coefficients:
    """From a table to its sheets. Asks 1, 2, 3, 16, 4, 5, 6, 7, in this order. Takes flows and all five columns, with an adjustment or
    without; or a Table, and nothing beside it. The rises of a Table are no part of it.

    `flows` is x: in row i and column j, what sector j buys from sector i. Imports are positive numbers. `adjustment` is the adjustment
    item, the tax on indirect exports; left out, it is n zeros. Each column of flows and value added makes up production, and each row of
    flows, final demand, exports and adjustment makes up production and imports, to the unit. As exports, the adjustment is no part of the
    need that imports are divided by, and is whole in the demand for domestic goods.

    The sheets `inputs`, `value_added` and `imports` are to the nearest millionth, halves upward. `domestic` and `demand` are worked out
    from them and rounded down. Question 7 is about `domestic`.

    >>> sheets = coefficients([[100, 400], [300, 600]], [500, 900], [250, 560], [250, 360], [600, 1000], [1000, 2000])
    >>> sheets.imports
    [250000, 200000]
    >>> sheets.demand
    [625, 1280]
    >>> coefficients([[100, 400], [300, 600]], [500, 900], [250, 560], [250, 360], [600, 1000], [1000, 2001])
    Traceback (most recent call last):
    tawqeshim.Refused: question 4, place 1: does every column balance?

    The same table, with 50 of the first sector's exports as its adjustment, has the same sheets:

    >>> adjusted = coefficients([[100, 400], [300, 600]], [500, 900], [200, 560], [250, 360], [600, 1000], [1000, 2000], [50, 0])
    >>> adjusted == sheets
    True

    2 in 3 and 1 in 3:

    >>> coefficients([2], [1], [0], [0], [1], [3])[:2]
    ([666667], [333333])
    """
    columns = {"final_demand": final_demand, "exports": exports, "imports": imports, "value_added": value_added, "production": production}
    if isinstance(flows, Table):
        for name, given in {**columns, "adjustment": adjustment, "n": n}.items():
            if given is not None:
                raise TypeError(f"{name} is given beside a Table, which has its own: give the Table alone")
        sectors, slices = _tabled(flows, "adjustment")
    else:
        for name, given in columns.items():
            if given is None:
                raise TypeError(f"{name} is left out or None: coefficients takes flows and the columns of a table, or a Table alone")
        sectors, slices = _listed(flows, cast("dict[str, Column]", columns), {"adjustment": adjustment}, n)
    a, d = _new_matrix(sectors.n), _new_matrix(sectors.n)
    v, m, f = (_new_column(sectors.n) for _ in range(3))
    _ask_of("coefficients", sectors, slices, a, v, m, d, f)
    return Coefficients(a[:], v[:], m[:], d[:], f[:])


def domestic_demand(import_shares: "Column", final_demand: "Column", exports: "Optional[Column]" = None,
                    adjustment: "Optional[Column]" = None, *, n: Optional[int] = None) -> list[int]:
    """The demand for domestic goods of a final demand, also of one that no table has, as that with a scheme in it. Asks 1, 2, 3, 16. Exports
    and adjustment that are left out are n zeros. The places of 3 run on through the four columns in their order.

    In each sector it is what is not imported of final demand, rounded down, and exports and adjustment whole. `import_shares` are the
    sheet `imports` that `coefficients` gives. With them, and the final demand, exports and adjustment of the table, it is the table's own
    `demand`. A scheme is added to final demand; a quarter of what it spends on goods of sector 0 is imported:

    >>> domestic_demand([250_000, 200_000], [500, 900], [250, 560])
    [625, 1280]
    >>> domestic_demand([250_000, 200_000], [600, 900], [250, 560])
    [700, 1280]

    `production` and `impact` never refuse it with question 8. With the other columns the same, a final demand that is nowhere below
    another has a demand that is nowhere below the other's, so `impact` does not refuse the two with 17. What is added is at most what is
    spent, and all of it where the import share is 0.

    >>> domestic_demand([250_000, 200_000], [500, 900], [250, 1_000_000_000], [0, 1])
    Traceback (most recent call last):
    tawqeshim.Refused: question 16, place 1: are a sector's exports and adjustment together within 1,000,000,000?
    """
    sectors, slices = _columns({"import_shares": import_shares, "final_demand": final_demand},
                               {"exports": exports, "adjustment": adjustment}, n)
    out = _new_column(sectors.n)
    _ask_of("domestic_demand", sectors, slices, out)
    return out[:]


def aggregate(table: Table, groups: "Groups") -> Aggregate:
    """Merges the sectors of a table: group k of `groups` becomes sector k. Asks 1, 2, 3, 16, 4, 5, 6, 18, 19.

    A group is a list of its sectors, or a word: a whole number in which bit i, that is 2**i, stands for sector i. There are 1 to n groups;
    question 2 refuses any other number of them. Every sector is in exactly one group, and every group has a sector; otherwise question 18
    refuses. A list that names a sector twice, or one that no word has a bit for, 64 or above, raises ValueError.

    Cells of merged rows and columns are added. So what the sectors of a group buy from each other is bought by the new sector from itself.
    The merged table passes questions 1 to 6 and 16, and the totals of its flows and of each column are those before. Question 19 refuses
    if a sum, or those of exports and adjustment together, is above 1,000,000,000; its error says which group has which sum. The rises are
    no part of merging: in the merged table they are 0, whatever they were. Its `named` counts the cells that are not 0.

    >>> table = Table.of([[10, 20, 30], [5, 40, 15], [25, 10, 50]], final_demand=[50, 80, 90], exports=[20, 30, 45],
    ...                  imports=[30, 20, 20], value_added=[60, 80, 105], production=[100, 150, 200])
    >>> merged, sizes = aggregate(table, [[0, 2], [1]])
    >>> merged.flows, merged.production, sizes
    ([115, 30, 20, 40], [300, 150], [2, 1])
    >>> aggregate(table, [0b101, 0b010]) == (merged, sizes)
    True
    >>> aggregate(table, [[0, 2], [1, 2]])
    Traceback (most recent call last):
    tawqeshim.Refused: question 18, place 0: is every sector in exactly one group, no group empty and no bit at n or above set?

    Question 7 is not asked, so a table that it refuses can be merged too. Nothing is promised of it after merging, or of multipliers:
    `coefficients` of the merged table may be refused, by question 7 alone, also where those of the table before are accepted. What it
    gives are figures of their own, as these import shares:

    >>> coefficients(table).imports
    [272727, 142857, 114286]
    >>> coefficients(merged).imports
    [175439, 142857]
    """
    sectors, slices = _tabled(table, "adjustment")
    words = _words(groups)
    g = len(words)
    merged, sizes = [_new_matrix(g), *(_new_column(g) for _ in range(6))], _new_column(g)
    _ask_of("aggregate", sectors, {**slices, "groups": words}, *merged, sizes)
    return Aggregate(Table.of(*(cells[:] for cells in merged)), sizes[:])


def permute(table: Table, order: "Column") -> Permuted:
    """Puts the sectors of a table in another order: `order[k]` is the old sector that comes to place k. Asks 1, 2, 3, 20.

    `order` names each of the n sectors once, counted from 0. Question 20 refuses an entry that is not below n or repeats an earlier one; its
    place is the first such entry. By `inverse` the new table gives the cells of the old one back:

    >>> table = Table.of([[10, 20, 30], [5, 40, 15], [25, 10, 50]], final_demand=[50, 80, 90], exports=[20, 30, 45],
    ...                  imports=[30, 20, 20], value_added=[60, 80, 105], production=[100, 150, 200])
    >>> turned, inverse = permute(table, [1, 2, 0])
    >>> turned.flows, turned.production, inverse
    ([40, 15, 5, 10, 50, 25, 20, 30, 10], [150, 200, 100], [2, 0, 1])
    >>> permute(turned, inverse) == (table, [1, 2, 0])
    True
    >>> permute(table, [1, 2, 1])
    Traceback (most recent call last):
    tawqeshim.Refused: question 20, place 2: is every entry of the list of sectors below n, and none a repeat of an earlier one?

    Whether the table balances is not asked, nor are 6, 7 and 16. If `coefficients` accepts the old table, it accepts the new one. Its sheets,
    the production from its demand, and the prices from direct rises in the new order are the old ones in the new order, with the same count
    of rounds:

    >>> [production(sheets.domestic, sheets.demand) for sheets in (coefficients(table), coefficients(turned))]
    [Production(amounts=[99, 148, 198], rounds=8), Production(amounts=[148, 198, 99], rounds=8)]

    The rises of the table are no part of it: in the new one they are 0, whatever they were, and so they are after the way back. The new
    table's `named` counts the cells that are not 0; of a file that names zeros it is smaller than before.
    """
    sectors, slices = _tabled(table, "adjustment")
    permuted, inverse = [_new_matrix(sectors.n), *(_new_column(sectors.n) for _ in range(6))], _new_column(sectors.n)
    _ask_of("permute", sectors, {**slices, "order": _column("order", order)}, *permuted, inverse)
    return Permuted(Table.of(*(cells[:] for cells in permuted)), inverse[:])


def _settled(call: str, domestic: "Matrix", given: "dict[str, Column]", budget: int, n: Optional[int]) -> tuple[list[int], int]:
    """The amounts and the count of a call that settles the columns given by their names."""
    starts = {name: _column(name, start) for name, start in given.items()}
    sectors = _size(n, *next(iter(starts.items())))
    out, work = _new_column(sectors.n), _new_column(sectors.n)
    rounds = ctypes.c_uint32()
    _ask_of(call, sectors, {"domestic": _matrix("domestic", domestic), **starts}, _budget(budget), out, work, counts=[rounds])
    return out[:], rounds.value


def production(domestic: "Matrix", demand: "Column", budget: int = PRODUCTION_BUDGET, *, n: Optional[int] = None) -> Production:
    """Production from a demand for domestic goods. Asks 1, 2, 7, 8, 9.

    Against the exact balance no sector is too high, and all n sectors together lack less than 20 * n. The default budget always suffices.

    >>> production([[75_000, 150_000], [240_000, 240_000]], [625, 1280])
    Production(amounts=[999, 1999], rounds=9)
    >>> production([950_000], [1])
    Production(amounts=[1], rounds=1)
    >>> production([950_001], [1])
    Traceback (most recent call last):
    tawqeshim.Refused: question 7, place 0: is every column sum of domestic coefficients at most 950,000?
    >>> production([[75_000, 150_000], [240_000, 240_000]], {0: 625, 1: 1280})
    Traceback (most recent call last):
    TypeError: demand is a dict, whose members are no cells in order
    """
    return Production(*_settled("production", domestic, {"demand": demand}, budget, n))


def impact(domestic: "Matrix", before: "Column", after: "Column", budget: int = PRODUCTION_BUDGET, *,
           n: Optional[int] = None) -> Impact:
    """What a scheme adds: the rise of each sector's production from the demand `before` to the demand `after`, which is nowhere below it.
    Asks 1, 2, 7, 8, 17, 9; 8 and 9 of the first demand and then of the second. The budget holds for each demand.

    No sector falls, each rises by at least what was added to it, and all n sectors together rise by less than 20 * T + 20 * n, with T the
    total added. Equal demands give 0 in every sector. The default budget always suffices.

    Both are demands for domestic goods. A scheme is final demand, of which the import share is bought elsewhere: `domestic_demand` gives
    `before` of the final demand without it, and `after` of that with it.

    >>> domestic = [[75_000, 150_000], [240_000, 240_000]]
    >>> impact(domestic, [625, 1280], [635, 1280])
    Impact(rises=[12, 4], rounds=10)
    >>> impact(domestic, [625, 1280], [626, 1279])
    Traceback (most recent call last):
    tawqeshim.Refused: question 17, place 1: is the second demand nowhere below the first?
    """
    return Impact(*_settled("impact", domestic, {"before": before, "after": after}, budget, n))


def price(domestic: "Matrix", rises: "Column", budget: int = PRICE_BUDGET, *, n: Optional[int] = None) -> Prices:
    """Price rises from direct rises, both in millionths. Asks 1, 2, 7, 8, 9.

    Against the exact balance no rise is too high, and each lacks less than 20 millionths. The default budget always suffices.

    >>> price([[75_000, 150_000], [240_000, 240_000]], [10_000, 0])
    Prices(rises=[11393, 2248], rounds=10)
    """
    return Prices(*_settled("price", domestic, {"rises": rises}, budget, n))


def implied_demand(domestic: "Matrix", production: "Column", *, n: Optional[int] = None) -> list[int]:
    """The demand for domestic goods behind a production: what industry takes, rounded down, is taken off it. Asks 1, 2, 7, 8.

    Of a production that `production` gave it is the demand that it was given. Another production can have the same demand behind it:

    >>> domestic = [[75_000, 150_000], [240_000, 240_000]]
    >>> implied_demand(domestic, [999, 1999])
    [625, 1280]
    >>> implied_demand(domestic, [1000, 2000])
    [625, 1280]

    A demand below 0 is a shortage. Here the second sector alone makes something, for which industry takes 150 of the first, which makes
    nothing:

    >>> implied_demand(domestic, [0, 1000])
    [-150, 760]

    A demand with a shortage is no demand for `production`, which raises ValueError of a number below 0.
    """
    amounts = _column("production", production)
    sectors = _size(n, "production", amounts)
    out = _new_signed_column(sectors.n)
    _ask_of("implied_demand", sectors, {"domestic": _matrix("domestic", domestic), "production": amounts}, out)
    return out[:]


def induced(inputs: "Matrix", imports: "Column", value_added: "Column", final_demand: "Column", production: "Column", *,
            n: Optional[int] = None) -> Induced:
    """Value added and imports that a production induces. Asks 1, 2, 3, 8.

    `inputs`, `imports` and `value_added` are the sheets of those names that `coefficients` gives, in millionths.

    >>> induced([[100_000, 200_000], [300_000, 300_000]], [250_000, 200_000], [600_000, 500_000], [500, 900], [999, 1999])
    Induced(value_added=[599, 999], imports=[249, 359])
    """
    columns = {"imports": _column("imports", imports), "value_added": _column("value_added", value_added),
               "final_demand": _column("final_demand", final_demand), "production": _column("production", production)}
    sectors = _size(n, "production", columns["production"])
    value, imported = _new_column(sectors.n), _new_column(sectors.n)
    _ask_of("induced", sectors, {"inputs": _matrix("inputs", inputs), **columns}, value, imported)
    return Induced(value[:], imported[:])


def inverse(domestic: "Matrix", budget: int = PRICE_BUDGET, *, n: Optional[int] = None) -> Inverse:
    """The Leontief inverse with its ratios, in millionths. Asks 1, 2, 7, 9. The budget holds for each column, and
    the default always suffices.

    >>> inverse([[500_000]])
    Inverse(cells=[1999999], power=[1000000], sensitivity=[1000000], rounds=21)
    """
    sheet = _matrix("domestic", domestic)
    sectors = _side(n, "domestic", sheet)
    cells, power, sensitivity = _new_matrix(sectors.n), _new_column(sectors.n), _new_column(sectors.n)
    rounds = ctypes.c_uint32()
    _ask_of("inverse", sectors, {"domestic": sheet}, _budget(budget), cells, power, sensitivity, counts=[rounds])
    return Inverse(cells[:], power[:], sensitivity[:], rounds.value)


def row(sheet: "Matrix", sector: int, *, n: Optional[int] = None) -> Union[list[int], memoryview]:
    """A sector's row as a list; or as a memoryview of that stretch of the sheet, if this is an array('Q'), a numpy array of uint64 with its
    rows in one piece, or another contiguous buffer of format Q or L with 64 bits.

    It is empty if n is not from 1 to 40, the sheet has not n * n cells or the sector is not below n.

    >>> row([75_000, 150_000, 240_000, 240_000], 1)
    [240000, 240000]
    >>> row([75_000, 150_000, 240_000, 240_000], 2)
    []
    """
    cells = _matrix("sheet", sheet)
    start, length = ctypes.c_size_t(), ctypes.c_size_t()
    _call("row", _side(n, "sheet", cells).n, cells, _whole("sector", sector), *map(ctypes.byref, (start, length)))
    stretch = slice(start.value, start.value + length.value)
    own = _own_cells(sheet)
    return cells[stretch] if own is None else own[stretch]


def _own_cells(sheet: Any) -> Optional[memoryview]:
    """The caller's own cells in one piece, if they are a buffer of unsigned 64-bit numbers that has some."""
    try:
        view = memoryview(sheet)
    except TypeError:
        return None
    fits = view.format in ("Q", "L") and view.itemsize == 8 and view.c_contiguous and view.nbytes
    return view.cast("B").cast("Q") if fits else None


def read_table(file: bytes) -> Table:
    """Reads the bytes of a table file. Asks 11 to 15 of each record in turn. Cells that the file does not name are 0, so a file without
    kind 10 has an adjustment of 0.

    >>> read_table(bytes([1, 2, 3, 1, 0, 0, 1, 244, 8]))[:4]
    (2, 1, [0, 0, 0, 0], [500, 0])
    >>> read_table(b"")
    Traceback (most recent call last):
    tawqeshim.Refused: question 15, place 0: does kind 8 come, with no byte after it?
    """
    x, columns = _new_matrix(_SECTORS), [_new_column(_SECTORS) for _ in range(7)]
    marks = (ctypes.c_uint64 * _MARKS)()
    sectors, named = ctypes.c_size_t(), ctypes.c_size_t()
    _ask("read_table", _file(file), x, *columns, marks, counts=[sectors, named])
    n = sectors.value
    return Table(n, named.value, x[:n * n], *(column[:n] for column in columns))


def write_table(table: Table) -> bytes:
    """The bytes of a table's file. Asks 1, 2, 3; in the places of 3 the adjustment comes after production, and the rises last.

    The cells that are not 0 stand in one order. So two tables have the same bytes exactly if n and all cells are the same, and reading the
    bytes gives n and all cells back. `named` is not looked at, and is the count of the cells that are not 0 when the bytes are read.
    Question 16 and whether the table balances are not asked: `coefficients` and `page` ask them.

    >>> table = Table.of([[100, 400], [300, 600]], [500, 900], [250, 560], [250, 360], [600, 1000], [1000, 2000])
    >>> file = write_table(table)
    >>> len(file), file[:9].hex(" ")
    (91, '01 02 02 01 01 00 00 00 64')
    >>> read_table(file) == table
    True
    >>> write_table(table._replace(rises=[0, 1_000_000_001]))
    Traceback (most recent call last):
    tawqeshim.Refused: question 3, place 17: is every amount within 1,000,000,000 and every share within one?
    """
    sectors, slices = _tabled(table, "rises")
    file, length = (ctypes.c_uint8 * _FILE)(), ctypes.c_size_t()
    _ask_of("write_table", sectors, slices, file, counts=[length])
    return bytes(file)[:length.value]


def page(file: bytes) -> bytes:
    """The printed sheet of a table file's bytes. A file or a table that is refused is one line, with the number and the place.

    >>> page(b"")
    b'refused 15 0\\n'
    """
    out, length = (ctypes.c_uint8 * _PAGE)(), ctypes.c_size_t()
    _ask("page", _file(file), out, counts=[length])
    return bytes(out)[:length.value]

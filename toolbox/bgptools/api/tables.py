"""Answers as tables: lists of data classes that a notebook shows, and that pandas takes with a type for each column."""
from __future__ import annotations

import dataclasses
import html
import importlib
import os
from typing import Any, Iterable, List, Optional, Sequence, Set, SupportsIndex, Type, TypeVar, Union, overload

from ..program.mistakes import Mistake
from .columns import CATEGORY, NUMBER, TEXT, TRUTH, Column, columns_of

Row = TypeVar("Row")
# Of a longer table a notebook shows the first rows.
SHOWN = 60


class Table(List[Row]):
    """A list of answers of one kind. It compares, pickles and goes into JSON as a list.

    `kind` is the data class of its rows: an empty table knows its columns by it.

    >>> from bgptools import Node, Table
    >>> Table([Node("1.0.0.1", 1, False, None)]).to_pandas().dtypes.astype(str).to_dict()
    {'address': 'string', 'asn': 'Int64', 'is_virtual': 'boolean', 'name': 'string'}
    """

    def __init__(self, rows: Iterable[Row] = (), kind: Optional[Type[Row]] = None) -> None:
        super().__init__(rows)
        self.kind: Optional[Type[Row]] = kind if kind is not None or not self else type(self[0])

    @overload
    def __getitem__(self, at: SupportsIndex) -> Row: ...

    @overload
    def __getitem__(self, at: "slice") -> "Table[Row]": ...

    def __getitem__(self, at: "Union[SupportsIndex, slice]") -> "Union[Row, Table[Row]]":
        """A row; of a slice a table."""
        return Table(super().__getitem__(at), self.kind) if isinstance(at, slice) else super().__getitem__(at)

    def to_pandas(self) -> Any:
        """The table as a `pandas.DataFrame`: a row each, and a column for each field.

        Texts are `string` or `category`, numbers `Int64`, truth `boolean`; what is absent is `NA`. Several values, as
        communities, are one text with commas. The fields of `before`, a route, are `before_source` and so on. Raises
        Mistake if pandas is missing, or if the table is empty and nobody has said of what."""
        pandas, columns = _pandas(), self._columns()
        return pandas.DataFrame({each.name: _series(pandas, each, list(map(each.read, self))) for each in columns})

    def _repr_html_(self) -> str:
        """The table for a notebook. All texts are escaped."""
        return html_of(self._columns() if self or self.kind else (), self)

    def _columns(self) -> Sequence[Column]:
        kinds: Set[Any] = {type(row) for row in self} or {self.kind}
        if kinds == {None}:
            raise Mistake("the table is empty, and its columns are not known: `Table([], Route)` has those of a Route")
        kind = kinds.pop()
        if kinds or not dataclasses.is_dataclass(kind):
            told = ", ".join(sorted(each.__name__ for each in {*kinds, kind}))
            raise Mistake("the rows of a table are answers of one kind, as Route, and not %s" % told)
        return columns_of(kind)


def html_of(columns: Sequence[Column], rows: Sequence[Any]) -> str:
    """A table of HTML, of its first rows if there are many."""
    head = "".join("<th>%s</th>" % html.escape(each.name) for each in columns)
    body = "".join("<tr>%s</tr>" % "".join(map(_cell, (each.read(row) for each in columns))) for row in rows[:SHOWN])
    more = "<p>and %d more</p>" % (len(rows) - SHOWN) if len(rows) > SHOWN else ""
    return "<table><thead><tr>%s</tr></thead><tbody>%s</tbody></table>%s" % (head, body, more)


def _cell(value: Any) -> str:
    return "<td>%s</td>" % ("" if value is None else html.escape(str(value)))


def _series(pandas: Any, column: Column, values: List[Any]) -> Any:
    """A column's values with its type; a text that is none of its categories becomes one more of them."""
    if column.type != CATEGORY:
        return pandas.array(values, dtype=column.type)
    more = sorted({each for each in values if each is not None} - set(column.categories))
    return pandas.Categorical(values, categories=[*column.categories, *more])


def _pandas() -> Any:
    try:
        return importlib.import_module("pandas")
    except ImportError:
        raise Mistake("data frames need the Python library pandas, and there is none: type `pip install "
                      "'bgptools[tables]'`, or `apt-get install python3-pandas`") from None


def read_sweep(path: "Union[str, os.PathLike[str]]") -> Any:
    """The table that `sweep --csv -o FILE` wrote, as a `pandas.DataFrame` with a type for each column.

    Raises Mistake if the file cannot be read, has other columns, or if pandas is missing."""
    from ..sweep.families import KINDS
    from ..sweep.table import NUMBERS
    pandas, place = _pandas(), os.fspath(path)
    types = {"number": NUMBER, "change": TEXT, "kind": pandas.CategoricalDtype(KINDS), "single_point": TRUTH,
             "converges": TRUTH, **dict.fromkeys(NUMBERS, NUMBER), "packets": NUMBER, "state": NUMBER, "mistake": TEXT}
    try:
        found = pandas.read_csv(place, dtype=types, keep_default_na=False, na_values=[""])
    except (OSError, ValueError) as fault:
        raise Mistake("no table of `sweep --csv`: %s" % fault, place) from None
    if list(found.columns) != list(types):
        raise Mistake("no table of `sweep --csv`: its columns are %s, and not %s" % (
            ", ".join(map(str, found.columns)), ", ".join(types)), place)
    return found

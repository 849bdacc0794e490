"""The cells of a table."""

from __future__ import annotations

import ctypes
from typing import Any, Callable, Iterator, List, Sequence, Union, overload

from ._faults import Outside
from ._library import library


class Table(Sequence[int]):
    """The present values of a service's table, as a list that is only read: `acct[5]`, `acct[10:20]`, `len(acct)`,
    `sum(acct)`. The values of a slice, and of a table that is gone through, by `reversed`, `in`, `index` and `count`
    too, are all of one state. `name` is the table's. Raises `Outside` where there is no such cell."""

    def __init__(self, asks: Callable[..., int], name: str, number: int) -> None:
        # It is a service's, which stays for as long as its table.
        self._asks = asks
        self.name = name
        self._number = number
        self._length = asks(library.stm_service_table_length, number)

    def __len__(self) -> int:
        return self._length

    @overload
    def __getitem__(self, index: int) -> int: ...

    @overload
    def __getitem__(self, index: slice) -> List[int]: ...

    def __getitem__(self, index: Union[int, slice]) -> Union[int, List[int]]:
        if isinstance(index, slice):
            return self._values(range(self._length)[index])
        return self._present(index)[0]

    def __iter__(self) -> Iterator[int]:
        return iter(self[:])

    def __reversed__(self) -> Iterator[int]:
        return iter(self[::-1])

    def index(self, value: Any, *bounds: int) -> int:
        """The number of the first cell that has this value, as a list's. Raises `ValueError` where none has it."""
        return self[:].index(value, *bounds)

    def version(self, index: int) -> int:
        """The number of the last entry of the chapter that changed a cell, 0 where none did. Raises `Outside`."""
        return self._present(index)[1]

    def _present(self, index: int) -> tuple[int, int]:
        try:
            cell = range(self._length)[index]
        except IndexError:
            raise Outside(f"{self.name}[{index}]") from None
        value, version = ctypes.c_int64(), ctypes.c_uint64()
        self._asks(library.stm_service_cell, self._number, cell, ctypes.byref(value), ctypes.byref(version))
        return value.value, version.value

    def _values(self, cells: range) -> List[int]:
        if not cells:
            return []
        first, last = min(cells[0], cells[-1]), max(cells[0], cells[-1])
        values = (ctypes.c_int64 * (last - first + 1))()
        self._asks(library.stm_service_cells, self._number, first, values, len(values))
        return [values[cell - first] for cell in cells]

"""Objects that `with` closes."""

from __future__ import annotations

from types import TracebackType
from typing import TypeVar

_Closed = TypeVar("_Closed", bound="Closing")


class Closing:
    """An object with `close`, which a `with` statement calls at its end."""

    def close(self) -> None:
        raise NotImplementedError

    def __enter__(self: _Closed) -> _Closed:
        return self

    def __exit__(
        self,
        kind: type[BaseException] | None,
        error: BaseException | None,
        trace: TracebackType | None,
    ) -> None:
        self.close()

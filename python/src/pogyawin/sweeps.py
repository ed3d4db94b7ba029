"""One call for many documents, by the `map` of a pool or of a cluster."""

import builtins
import functools
import importlib
import importlib.util
import sys
from typing import Any, Callable, Iterable, List, Sequence, TypeVar, Union

T = TypeVar("T")
R = TypeVar("R")

def sweep(call: Callable[[T], R], items: Sequence[T], map: Callable[..., Iterable[Any]] = builtins.map
          ) -> List[Union[R, Exception]]:
    """What a call gives for each item, such as a document, in their order. A call that fails has its exception there.

    `map` is that of a pool of `concurrent.futures` or of a client of Dask, or another one that gives values, or futures
    with `result`. Where `tqdm` is there and standard error is a terminal, a bar shows how far it is.
    `sweep(int, ["1", "2"]) == [1, 2]`"""
    results = map(functools.partial(_guarded, call), items)
    if sys.stderr.isatty() and importlib.util.find_spec("tqdm"):
        results = importlib.import_module("tqdm").tqdm(results, total=len(items))
    return [_guarded(_result, result) for result in results]

def _guarded(call: Callable[[Any], Any], item: Any) -> Any:
    """What the call gives, or its exception."""
    try:
        return call(item)
    except Exception as error:
        return error

def _result(result: Any) -> Any:
    """The value of a future, or what is one already."""
    return result.result() if callable(getattr(result, "result", None)) else result

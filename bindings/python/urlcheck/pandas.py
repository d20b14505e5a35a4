"""A column of links in pandas: importing this gives each Series the accessor ``urlcheck``.

>>> import pandas, urlcheck.pandas
>>> links = pandas.Series(["http://h/", "http://h/a b", None])
>>> links.urlcheck.is_valid().tolist()
[True, False, <NA>]
>>> links.urlcheck.rule().tolist()
[nan, 'code-point', nan]
"""

from typing import Any

from pandas import DataFrame, Series
from pandas.api.extensions import register_series_accessor

from . import AnyBase, AnyProfile, check_many, is_valid_many, mend_many, resolve_many
from ._many import is_of_texts


@register_series_accessor("urlcheck")
class Links:
    """What is found of each text of a Series, as columns with its index. A missing text has missing answers."""

    def __init__(self, texts: "Series[Any]") -> None:
        if not is_of_texts(texts.dtype):
            raise AttributeError("a column of texts is wanted, not of {}".format(texts.dtype))
        self._texts = texts

    def is_valid(self, base: AnyBase = None, profile: AnyProfile = None) -> "Series[Any]":
        """Whether each text is a valid URL string."""
        column: "Series[Any]" = is_valid_many(self._texts, base, profile)
        return column

    def check(self, base: AnyBase = None, profile: AnyProfile = None) -> DataFrame:
        """Columns ``valid``, ``rule`` and ``place``: the first violation of each text."""
        return DataFrame(check_many(self._texts, base, profile)._asdict())

    def rule(self, base: AnyBase = None, profile: AnyProfile = None) -> "Series[Any]":
        """The rule that each text violates first."""
        column: "Series[Any]" = check_many(self._texts, base, profile).rule
        return column

    def place(self, base: AnyBase = None, profile: AnyProfile = None) -> "Series[Any]":
        """The place of that, in code points from 0."""
        column: "Series[Any]" = check_many(self._texts, base, profile).place
        return column

    def resolve(self, base: AnyBase = None, profile: AnyProfile = None) -> "Series[Any]":
        """The text of the URL of each text: one text for one URL."""
        column: "Series[Any]" = resolve_many(self._texts, base, profile)
        return column

    def mend(self, base: AnyBase = None, profile: AnyProfile = None) -> DataFrame:
        """Columns ``text`` and ``kind``: a valid text in place of each one, and how it differs from it."""
        return DataFrame(mend_many(self._texts, base, profile)._asdict())

"""The functions that each bundle has, under the names of `fluent.runtime.builtins`."""

from .types import fluent_date, fluent_number

NUMBER = fluent_number
DATETIME = fluent_date

BUILTINS = {"NUMBER": NUMBER, "DATETIME": DATETIME}

"""Opening hours sheets, read by the proved library of Lorukinde.

    >>> import lorukinde
    >>> print(lorukinde.read("Mo-Fr 09:00-18:00; 2020 Dec 25-05 off"))
    open: Monday to Friday, 09:00 to 18:00
    closed: 25 December 2020 to 5 January 2021

docs/PYTHON.md shows the rest.
"""
from ._version import __version__
from ._days import Days, Row, Touch, days
from .feed import Feed, Line, read_feed
from .meaning import (
    Clock,
    Date,
    Dates,
    Day,
    Easter,
    Event,
    Fixed,
    Head,
    Holiday,
    HolidayKind,
    Manner,
    Meaning,
    Month,
    Months,
    Next,
    Nth,
    Placed,
    Previous,
    Raw,
    Separator,
    Span,
    State,
    Steps,
    Sun,
    Time,
    ToWeekday,
    Weekday,
    Weekdays,
    Weeks,
    Years,
)
from .reading import EDITION_1, EDITION_2, HOUSE, Part, Reading, Refusal, Refused, Rule, Sheet, read
from .rule_months import RuleMonths, months
from .tally import Tally

__all__ = [
    "Days",
    "EDITION_1",
    "EDITION_2",
    "Feed",
    "HOUSE",
    "Line",
    "Part",
    "Reading",
    "Refusal",
    "Refused",
    "Row",
    "Rule",
    "RuleMonths",
    "Sheet",
    "Tally",
    "Touch",
    "__version__",
    "days",
    "months",
    "read",
    "read_feed",
]

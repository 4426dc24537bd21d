"""mcsim: a simulator of seL4 MCS scheduling, proved. Build a `System`, or read one, and simulate, check or view it."""
from .explained import Explanation, Leg, Way
from .faults import Fault
from .forever import CoreSet, EndsNever, EndsOverdue, EndsUntaken, EverFinding, Latency, Losses, Misses, MissingAnswers, Outlook, Response, Sets, SlowAnswers
from .parts import Chain, Context, Link, Note, Order, Server, Source, Thread
from .system import System
from .verdict import Answer, Counts, Figures, Finding, Hint, Job, Lost, Miss, Never, Other, Overdue, Slow, Unanswered, Unjudged, Untaken, Verdict
from .views import View

__version__ = '1.3'
__all__ = [
    'Answer', 'Chain', 'Context', 'CoreSet', 'Counts', 'EndsNever', 'EndsOverdue', 'EndsUntaken', 'EverFinding', 'Explanation', 'Fault', 'Figures', 'Finding', 'Hint',
    'Job', 'Latency', 'Leg', 'Link', 'Losses', 'Lost', 'Miss', 'Misses', 'MissingAnswers', 'Never', 'Note', 'Order', 'Other', 'Outlook', 'Overdue', 'Response', 'Server', 'Sets', 'Slow',
    'SlowAnswers', 'Source', 'System', 'Thread', 'Unanswered', 'Unjudged', 'Untaken', 'Verdict', 'View', 'Way',
]

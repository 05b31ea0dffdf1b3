"""What the prover says of a crate that was edited, and what comes of each edit by that."""
import re
from dataclasses import dataclass
from pathlib import Path

REFUSED = 'refused'
NOT_REFUSED = 'NOT REFUSED'
NOT_READ = 'bad: it does not reach the prover'
NAMES_GONE = 'bad: only names are gone'
AT_A_LIMIT = 'bad: the prover stops at a limit'
VERDICT = re.compile(r'(fn|impl|struct|enum|trait|const) (\S+): (.*)')
GOAL = re.compile(r'(?:note: )?(?:\./)?((?:src|specs|proofs)/\S+?):(\d+):\d+: (.*)')
NAME_GONE = re.compile(r'has no field|is not in scope|has no `|was not admitted|is no name')


@dataclass(frozen=True)
class Goal:
    """A goal that isn't proved, at a line of the code, or of a file of proofs."""
    path: str
    line: int
    text: str


@dataclass(frozen=True)
class Item:
    """What isn't proved: a function or another item, its path in the crate as `module::Type::name`, and why."""
    kind: str
    path: str
    why: str

    def is_in(self, module):
        return not module or self.path.startswith(f'{module}::')

    def is_called(self, function, module):
        """Whether this is the function. One without a trait is in the module of its type, wherever it is written."""
        names = self.path.split('::')
        of_type = names[-2:] == [function.owner, function.name]
        return self.kind == 'fn' and (of_type or self.is_in(module) and names[-1] == function.name)

    def is_at_fault(self):
        """Whether it is said of the item itself, and not only of others that it calls, passes on or waits for."""
        reasons = re.sub(r'^(not proved|no proof)(: |; |$)', '', self.why).split('; ')
        return any(not reason.startswith('it ') for reason in reasons)

    def has_goal(self):
        """Whether a goal of its own is named. Of functions that call one another, none may be where one is refused."""
        return 'did not prove' in self.why


@dataclass(frozen=True)
class Said:
    """What the prover says of a crate. `has_verdicts` is whether it came to any item."""
    has_verdicts: bool
    items: list
    goals: list

    @classmethod
    def of(cls, text):
        lines = text.split('\n')
        verdicts = [it for it in map(VERDICT.match, lines) if it]
        items = [Item(it[1], it[2].partition('::')[2], it[3]) for it in verdicts if not it[3].startswith('proved')]
        return cls(bool(verdicts), items, [Goal(it[1], int(it[2]), it[3]) for it in map(GOAL.match, lines) if it])


def is_goal_of(edit, goal):
    """Whether a goal is of the function that the edit changes, or of the edit's file if it changes none.

    Goals of the code are told by their lines. A proof file lies in its function's folder, or in one of functions that
    call one another: there the name of each goal begins with its function's.
    """
    function, in_module = edit.function(), goal.path.startswith(f'{edit.proofs()}/')
    if function is None:
        return goal.path == edit.path or in_module
    if goal.path == edit.path:
        return function.first <= goal.line <= function.last
    folders = Path(goal.path).parts[:-1]
    if folders[-1].startswith('+'):
        return f'`{function.name}-' in goal.text
    return folders[-2:] == (function.owner, function.name) or in_module and folders[-1] == function.name


def is_at_fault(edit, item):
    """Whether an item that isn't proved for itself is what the edit changes."""
    function, module = edit.function(), edit.module()
    return item.is_at_fault() and (item.is_in(module) if function is None else item.is_called(function, module))


def judged(edit, text, is_alone):
    """What a try of the edit comes to, alone or together with others, by what the prover says."""
    said = Said.of(text)
    if not said.has_verdicts:
        return NOT_READ
    goals = [goal for goal in said.goals if is_goal_of(edit, goal)]
    items = [item for item in said.items if is_at_fault(edit, item) and (is_alone or item.has_goal())]
    if not goals and not items:
        blamed = ' '.join(item.path for item in said.items if item.is_at_fault())
        return f'refused elsewhere: {blamed}' if said.items else NOT_REFUSED
    if items and all(item.why.startswith('could not tell') for item in items):
        return AT_A_LIMIT
    if goals and all(NAME_GONE.search(goal.text) for goal in goals):
        return NAMES_GONE
    return REFUSED

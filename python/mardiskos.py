"""The proved planner library, for Python. Needs the standard library and libmardiskos.so.

    import mardiskos
    record = open("examples/two-shelves.record", "rb").read()
    plan = mardiskos.plan(record)         # Plan(steps=[0, 2, 1, 3], cost=10, runs=4, searches=1, real=True, marks=[0, 0, 1, 0])
    plan.unmarked                         # [0, 2, 3]: the relaxed plan, without the moves that the repair inserted
    mardiskos.newest(record, plan.steps)  # Newest(values=[0, 0], steps=4, runs=4)
    sheet = mardiskos.write_sheet(plan.steps, plan.cost, plan.real, plan.marks)

Records and sheets are bytes or anything like them, lists of actions and marks any iterable of numbers. A refusal raises `Refused`, which
has number, place and words. A number that fits no field (an action not 0 to 65,535, a mark not 0 to 255, a cost or an edition of over
32 bits) raises OverflowError.

New in 0.7: `Plan` ends with the marks, `Sheet` with marks and edition. The other fields keep their names and positions; only code that
unpacks a whole Plan or Sheet has to take the new ones. `write_sheet` writes edition 2 unless it is told edition 1.

The library is looked for in the file that MARDISKOS_LIB names if it is set; else in build/lib of the repository, where
`sh tools/build` puts it; else wherever the system finds it. Its name has this module's version, libmardiskos.so.0.7. It is proved;
this module is not, it is tested.
"""

import ctypes
import os
from array import array
from ctypes import c_bool, c_char_p, c_size_t, c_uint32, c_uint64, c_void_p
from typing import Iterable, List, NamedTuple

__version__ = "0.7.0"

MAX_STEPS = 32768
MAX_VARIABLES = 64
MAX_ACTIONS = 1024
MAX_RECORD = 49315
MAX_SHEET = 45063

WORDS = (
    "accepted",
    "the record stops before all its fields are there",
    "the record's edition is not 1",
    "the count of variables is not 1 to 64, or there are more than 1,024 actions",
    "a value does not exist in its variable, or a goal value is given where there is no goal",
    "a fact's variable does not exist, or the variables of a list do not rise",
    "padding is not 0, or bytes follow the record",
    "the black causal graph has a cycle",
    "an arc of a black variable lacks its return",
    "a list entry is no action or does not apply, or a goal is missed",
    "no plan exists",
    "the result is longer than the room lent",
    "the sheet is cut short, of another edition or over 32,768 steps, or its end is not clean",
    "the list is over 32,768 entries, or an entry is too large for a sheet",
)


class Refused(Exception):
    """The library's refusal: number (1 to 13), place, and the number's meaning in words. docs/GUIDE.md says what the place counts."""

    def __init__(self, number: int, place: int):
        super().__init__(number, place)
        self.number = number
        self.place = place
        self.words = WORDS[number]

    def __str__(self) -> str:
        return f"refused {self.number} {self.place}: {self.words}"


class Run(NamedTuple):
    """How many steps run until one does not apply, and whether all run and reach every goal."""

    steps: int
    is_plan: bool


class Judgement(NamedTuple):
    """A list judged: every variable keeps every value it has had; only the red ones do; each holds one value."""

    relaxed: Run
    red_black: Run
    real: Run


class Newest(NamedTuple):
    """The newest value of each variable where the red-black run stops, and how many steps run red-black and for real."""

    values: List[int]
    steps: int
    runs: int


class ForwardRun(NamedTuple):
    steps: List[int]
    reached: int


class Plan(NamedTuple):
    """A repaired plan: its steps, their cost, how many run for real, how many path searches the repair made, whether it is a plan
    in a real run, and a mark for each step: 1 for an inserted move, 0 for an action of the relaxed plan. A search is a place
    where the repair asks for a path, also for one that has no moves or was found before; there are at most n * P * m: actions
    of the relaxed plan, product of the black variables' counts of values, black variables."""

    steps: List[int]
    cost: int
    runs: int
    searches: int
    real: bool
    marks: List[int]

    @property
    def runnable(self) -> List[int]:
        """The steps that run for real: the front of the plan, the whole of it where only a goal is missed."""
        return self.steps[: self.runs]

    @property
    def unmarked(self) -> List[int]:
        """The steps without the inserted moves: the relaxed plan that was repaired. Repairing it gives the same plan and marks, if
        there is room."""
        return _unmarked(self)


class Sheet(NamedTuple):
    """What stands on a sheet, with a mark for each step, 0 or 1, and the edition, 1 or 2; in edition 1 all marks are 0. The fields are
    in the order in which `write_sheet` takes them: write_sheet(*sheet) gives the bytes that were read."""

    steps: List[int]
    cost: int
    real: bool
    marks: List[int]
    edition: int

    @property
    def unmarked(self) -> List[int]:
        """The steps that are not marked: on a sheet of edition 2 of a repaired plan, the relaxed plan."""
        return _unmarked(self)


# The structs of c/mardiskos.h.
class _Judgement(ctypes.Structure):
    _fields_ = [
        ("code", c_uint64),
        ("relaxed_steps", c_uint32),
        ("red_black_steps", c_uint32),
        ("real_steps", c_uint32),
        ("relaxed_plan", c_bool),
        ("red_black_plan", c_bool),
        ("real_plan", c_bool),
    ]


class _NewestValues(ctypes.Structure):
    _fields_ = [("code", c_uint64), ("steps", c_uint32), ("runs", c_uint32)]


class _ForwardRun(ctypes.Structure):
    _fields_ = [("code", c_uint64), ("steps", c_uint32), ("reached", c_uint32)]


class _RelaxedPlan(ctypes.Structure):
    _fields_ = [("code", c_uint64), ("steps", c_uint32)]


class _PlanResult(ctypes.Structure):
    _fields_ = [
        ("code", c_uint64),
        ("steps", c_uint32),
        ("cost", c_uint32),
        ("runs", c_uint32),
        ("searches", c_uint32),
        ("real", c_bool),
    ]


class _SheetSize(ctypes.Structure):
    _fields_ = [("code", c_uint64), ("bytes", c_uint32)]


class _Sheet(ctypes.Structure):
    _fields_ = [("code", c_uint64), ("steps", c_uint32), ("cost", c_uint32), ("edition", c_uint32), ("real", c_bool)]


_BYTES = [c_char_p, c_size_t]
_LIST = [c_void_p, c_size_t]
_CALLS = {
    "mardiskos_check": (c_uint64, _BYTES),
    "mardiskos_judge": (_Judgement, _BYTES + _LIST),
    "mardiskos_newest": (_NewestValues, _BYTES + _LIST + _LIST),
    "mardiskos_forward": (_ForwardRun, _BYTES + _LIST),
    "mardiskos_relax": (_RelaxedPlan, _BYTES + _LIST),
    "mardiskos_plan": (_PlanResult, _BYTES + _LIST + _LIST + _LIST),
    "mardiskos_repair": (_PlanResult, _BYTES + _LIST + _LIST + _LIST + _LIST),
    "mardiskos_write_sheet": (_SheetSize, _LIST + _LIST + [c_uint32, c_uint32, c_bool] + _LIST),
    "mardiskos_read_sheet": (_Sheet, _BYTES + _LIST + _LIST),
}


def _load() -> ctypes.CDLL:
    name = os.environ.get("MARDISKOS_LIB")
    if not name:
        name = "libmardiskos.so." + __version__.rpartition(".")[0]
        built = os.path.join(os.path.dirname(os.path.abspath(__file__)), "..", "build", "lib", name)
        name = built if os.path.exists(built) else name
    try:
        library = ctypes.CDLL(name)
    except OSError as why:
        raise ImportError(f"no library mardiskos ({why}): run `sh tools/build`, or name its file in MARDISKOS_LIB") from None
    for call, (answer, arguments) in _CALLS.items():
        function = getattr(library, call)
        function.restype, function.argtypes = answer, arguments
    return library


_library = _load()


def check(record: bytes) -> None:
    """Checks a record. Refuses with 1 to 6, as every call that takes a record does."""
    _accept(_library.mardiskos_check(*_bytes(record)))


def judge(record: bytes, actions: Iterable[int]) -> Judgement:
    """Judges a list of actions under the three semantics. Refuses with 13 and 9 too."""
    actions = array("H", actions)
    judged = _library.mardiskos_judge(*_bytes(record), *_lend(actions))
    _accept(judged.code)
    return Judgement(
        Run(judged.relaxed_steps, judged.relaxed_plan),
        Run(judged.red_black_steps, judged.red_black_plan),
        Run(judged.real_steps, judged.real_plan),
    )


def newest(record: bytes, actions: Iterable[int]) -> Newest:
    """What each variable was set to last, at first its initial value, in a red-black run of the actions until one does not apply.
    Where all those steps run for real, it is the real state. Refuses with 13 and 9 too."""
    actions, room = array("H", actions), _room(MAX_VARIABLES)
    found = _library.mardiskos_newest(*_bytes(record), *_lend(actions), *_lend(room))
    _accept(found.code)
    return Newest([value for value in room if value != 65535], found.steps, found.runs)


def forward(record: bytes) -> ForwardRun:
    """As long as a goal is missing, the cheapest action that applies and reaches something new, of several the one with
    the lowest number. Refuses with 10 too."""
    room = _room(MAX_STEPS)
    run = _library.mardiskos_forward(*_bytes(record), *_lend(room))
    _accept(run.code)
    return ForwardRun(room[: run.steps].tolist(), run.reached)


def relax(record: bytes) -> List[int]:
    """The relaxed plan: what the forward run needs of itself for the goals. Refuses with 10 too."""
    room = _room(MAX_STEPS)
    found = _library.mardiskos_relax(*_bytes(record), *_lend(room))
    _accept(found.code)
    return room[: found.steps].tolist()


def plan(record: bytes, room: int = MAX_STEPS) -> Plan:
    """The planner: the repair of the record's relaxed plan. `room` is the most steps wanted. Inserted moves take a
    cheapest way; of several one with the fewest moves, then the one with the lower action where they first differ. Refuses
    with 7, 8, 10, 11 too."""
    steps, work, marks = _room(room), _room(room), _area(room)
    areas = _lend(steps) + _lend(work) + _lend(marks)
    return _plan(_library.mardiskos_plan(*_bytes(record), *areas), steps, marks)


def repair(record: bytes, actions: Iterable[int], room: int = MAX_STEPS) -> Plan:
    """The same for the caller's own relaxed plan. Refuses with 7, 8, 13, 9, 11 too."""
    actions, steps, work, marks = array("H", actions), _room(room), _room(room), _area(room)
    areas = _lend(actions) + _lend(steps) + _lend(work) + _lend(marks)
    return _plan(_library.mardiskos_repair(*_bytes(record), *areas), steps, marks)


def write_sheet(steps: Iterable[int], cost: int, real: bool, marks: Iterable[int] = (), edition: int = 2) -> bytes:
    """The bytes of a plan sheet. Edition 1 has no marks and does not look at those given; any other number gives edition 2. There
    a mark other than 0 counts as 1 and a missing one as 0; marks behind those of the steps are not looked at. Refuses with 13."""
    if not 0 <= cost < 2**32:
        raise OverflowError("a cost has 32 bits")
    if not 0 <= edition < 2**32:
        raise OverflowError("an edition has 32 bits")
    steps, marks, sheet = array("H", steps), array("B", marks), _area(MAX_SHEET)
    size = _library.mardiskos_write_sheet(*_lend(steps), *_lend(marks), edition, cost, real, *_lend(sheet))
    _accept(size.code)
    return sheet[: size.bytes].tobytes()


def read_sheet(sheet: bytes) -> Sheet:
    """Reads a plan sheet of edition 1 or 2. Refuses with 12."""
    room, marks = _room(MAX_STEPS), _area(MAX_STEPS)
    read = _library.mardiskos_read_sheet(*_bytes(sheet), *_lend(room), *_lend(marks))
    _accept(read.code)
    return Sheet(room[: read.steps].tolist(), read.cost, read.real, marks[: read.steps].tolist(), read.edition)


def _accept(code: int) -> None:
    if code:
        raise Refused(code % 32, code // 32)


def _bytes(data) -> tuple:
    data = memoryview(data).tobytes()
    return data, len(data)


def _lend(items: array) -> tuple:
    """The address and the count of an array's items; the caller keeps the array."""
    return items.buffer_info()


def _room(entries: int) -> array:
    return array("H", bytes(2 * entries))


def _area(count: int) -> array:
    return array("B", bytes(count))


def _plan(result: _PlanResult, steps: array, marks: array) -> Plan:
    _accept(result.code)
    steps, marks = steps[: result.steps].tolist(), marks[: result.steps].tolist()
    return Plan(steps, result.cost, result.runs, result.searches, result.real, marks)


def _unmarked(plan) -> List[int]:
    return [step for step, mark in zip(plan.steps, plan.marks) if not mark]

"""How an event is undone where a thread stands at one of its instructions (docs/reference/formats.md, Relocated code,
has the code): for each byte of the event what is changed by then. vaknuhol-run does it (native/vaknuhol-run/outside.c)
before a signal is delivered."""
from vaknuhol.recording.actions import REGISTERS, Action, Ring

# native/vaknuhol-run/run.h
RAX_IS_KEPT, FLAGS_CHANGED, FLAGS_IN_MEMORY, FLAGS_ADDED, RECORDED, SLOT_WRITTEN, CLAIMED = 1, 2, 4, 8, 16, 32, 64
FLAGS = RAX_IS_KEPT | FLAGS_CHANGED | FLAGS_IN_MEMORY
COMPARISON = 9  # a CMP and a jump
# of an event for threads: what saves rax and the flags, what gives both back, and a CMP of the saved rax and a jump
SAVING, RESTORING, COMPARISON_OF_RAX = 12, 11, 14
SLOT_CLAIMED, SLOT_FILLED = 34, 48  # after how many bytes a ring's event for threads has done what

Steps = list[tuple[int, int]]  # from which byte on, and what is changed from there on; the last one is the event's end

COVER: Steps = [(0, 0), (8, 0)]
COUNT: Steps = [(0, 0), (16, RAX_IS_KEPT), (28, RAX_IS_KEPT | RECORDED), (36, 0)]
RING: Steps = [(0, 0), (9, RAX_IS_KEPT), (37, RAX_IS_KEPT | SLOT_WRITTEN), (45, FLAGS | SLOT_WRITTEN),
               (59, FLAGS | RECORDED), (77, 0)]
SHARED_RING: Steps = [(0, 0), (9, RAX_IS_KEPT), (SLOT_CLAIMED, FLAGS | CLAIMED),
                      (SLOT_FILLED, FLAGS | CLAIMED | RECORDED), (56, FLAGS | RECORDED), (59, RAX_IS_KEPT | RECORDED),
                      (67, 0)]


def of_condition(comparisons: int) -> Steps:
    """The comparisons stand behind the saving of rax and flags, then the instruction that records, and what gives both
    back."""
    recording = 27 + COMPARISON * comparisons
    return [(0, 0), (9, RAX_IS_KEPT), (28, FLAGS), (recording + 1, FLAGS | RECORDED), (recording + 26, 0)]


def recorded_at(action: Action) -> int:
    """After how many bytes an event for threads has recorded: by LOCK INC, or a store, which stands alone where it has
    no condition, or of a ring by what fills the slot."""
    if action.is_ring:
        return SLOT_FILLED
    if not action.adds and not action.comparisons:
        return COVER[-1][0]
    comparisons = (COMPARISON if comparison.register != REGISTERS[0] else COMPARISON_OF_RAX
                   for comparison in action.comparisons)
    return SAVING + sum(comparisons) + (9 if action.adds else COVER[-1][0])


def of_threads(action: Action) -> Steps:
    """The flags are in AH and AL where a comparison or LOCK INC has changed them. Behind it ADD has changed AL, and
    SAHF gives them back. In a ring's event they are in memory from LOCK XADD on, and eax leads to the slot up to where
    they are loaded."""
    if action.is_ring:
        return SHARED_RING
    recorded, saved = recorded_at(action), RAX_IS_KEPT | FLAGS_CHANGED
    if recorded < SAVING:
        return COVER
    return [(0, 0), (9, RAX_IS_KEPT), (SAVING + 1, saved), (recorded, saved | RECORDED),
            (recorded + 2, saved | FLAGS_ADDED | RECORDED), (recorded + 3, RAX_IS_KEPT | RECORDED),
            (recorded + RESTORING, 0)]


def steps_of(action: Action, for_threads: bool) -> Steps:
    if for_threads:
        return of_threads(action)
    if isinstance(action, Ring):
        return RING
    if action.comparisons:
        return of_condition(len(action.comparisons))
    return COUNT if action.adds else COVER


def undo_of(action: Action, for_threads: bool) -> bytes:
    """What is undone at each byte of an event."""
    steps = steps_of(action, for_threads)
    return b"".join(bytes([what]) * (end - begin) for (begin, what), (end, _) in zip(steps, steps[1:]))

"""What the operand of an indirect call tells of functions whose addresses stand in the data."""
import struct

import pytest

from tests.doubles import double
from tests.made_coverage import BASE, listing_of
from vaknuhol.program.call_slots import AGAINST, ELEMENT, FIELD, OPEN, TABLE, TOLD, CallSlots, Slot, operand_of
from vaknuhol.program.listing_file import CALL_INDIRECT, FALLS

DATA, END = 0x500000, 0x401010
RAX, R12 = 0, 12
F, G, H = BASE, BASE + 0x10, BASE + 0x20
# by their spelling, of instructions that end at END
OPERANDS = {
    "call *(%rax)": ("ff10", Slot(FIELD, 0)),
    "call *0x38(%rax)": ("ff5038", Slot(FIELD, 0x38)),
    "call *0x38(%r12)": ("41ff542438", Slot(FIELD, 0x38)),
    "call *-8(%rbx)": ("ff53f8", Slot(FIELD, -8)),
    "call *0x100(%rax)": ("ff9000010000", Slot(FIELD, 0x100)),
    "jmp *0x18(%rdx)": ("ff6218", Slot(FIELD, 0x18)),
    "mov 0x18(%rax),%rax": ("488b4018", Slot(FIELD, 0x18)),
    "call *0xffff0(%rip)": ("ff15f0ff0f00", Slot(TABLE, END + 0xFFFF0)),
    "call *0x500000(,%rax,8)": ("ff14c500005000", Slot(TABLE, DATA)),
    "call *0x500000": ("ff142500005000", Slot(TABLE, DATA)),
    "call *(%rsi,%rax,8)": ("ff14c6", Slot(ELEMENT, 0)),
    "call *0(%rbp,%rax,8)": ("ff54c500", Slot(ELEMENT, 0)),
    "call *0(%r12,%rax,8)": ("41ff14c4", Slot(ELEMENT, 0)),
    "call *%rax": ("ffd0", RAX),
    "call *%r12": ("41ffd4", R12),
    "notrack jmp *%rax": ("3effe0", RAX),
    "call *8(%rsp)": ("ff542408", None),
    "mov 8(%rsp),%rax": ("488b442408", None),
    "call *%gs:0x10": ("65ff142510000000", None),
    "call f": ("e800000000", None),
    "a byte": ("ff", None),
}


@pytest.mark.parametrize("spelling", OPERANDS)
def test_operands_are_fields_tables_elements_or_registers(spelling):
    code, wanted = OPERANDS[spelling]
    assert operand_of(bytes.fromhex(code), END) == wanted


def slots_of(words, held=(), functions=(F, G, H), code=(), writes=()) -> CallSlots:
    """Of data that begins at DATA, with addresses that instructions hold; the code begins at F."""
    listing = listing_of([(F + 4 * at, len(it), FALLS, 0) for at, it in enumerate(code)] or None)
    listing.kind[-1] = CALL_INDIRECT
    listing.file.held[: len(held)] = held
    listing.writes = writes
    program = double(
        segments=[(DATA, 6, struct.pack(f"<{len(words)}Q", *words))],
        end=DATA + 0x1000,
        is_code=lambda it: BASE <= it < DATA,
        read=lambda addr, size: code[(addr - F) // 4] if addr < DATA else struct.pack(f"<{len(words)}Q", *words)[addr - DATA :][:size],
    )
    return CallSlots(program, listing, functions)


def test_a_field_is_at_its_displacement_from_an_address_that_is_held():
    """As in tables of virtual functions: not before it, and behind it only as in a later structure of an array."""
    slots = slots_of([0, F, G, 0, H], held=[DATA, DATA + 0x18])
    assert [slots.told(Slot(FIELD, 8), it) for it in (F, G, H)] == [TOLD, OPEN, TOLD]
    assert [slots.told(Slot(FIELD, 0x10), it) for it in (F, G, H)] == [AGAINST, TOLD, AGAINST]


def test_an_address_that_the_data_holds_begins_a_table_too():
    assert slots_of([0, DATA + 0x10, 0, F]).told(Slot(FIELD, 8), F) == TOLD


def test_a_table_is_the_one_that_the_operand_names():
    slots = slots_of([F, G, 0, H], held=[DATA, DATA + 0x18])
    assert [slots.told(Slot(TABLE, DATA), it) for it in (F, G, H)] == [TOLD, TOLD, AGAINST]
    assert [slots.told(Slot(TABLE, DATA + 0x18), it) for it in (F, G, H)] == [AGAINST, AGAINST, TOLD]


def test_an_element_is_of_a_table_that_has_functions_alone():
    slots = slots_of([F, G, 7, H], held=[DATA, DATA + 0x10])
    assert [slots.told(Slot(ELEMENT, 0), it) for it in (F, G, H)] == [TOLD, TOLD, OPEN]


def test_nothing_speaks_against_a_function_whose_address_an_instruction_holds():
    """It may have been stored anywhere; and nothing is told where the operand is a register."""
    slots = slots_of([0, F, G], held=[DATA, F])
    assert slots.told(Slot(FIELD, 0x10), F) == OPEN and slots.told(Slot(FIELD, 0x18), G) == AGAINST
    assert slots.told(Slot(FIELD, 8), F) == TOLD and slots.told(Slot(FIELD, 8), H) == AGAINST
    assert slots.told(None, F) == slots.told(None, H) == OPEN


def test_a_register_has_what_the_last_instruction_loaded():
    """Up to the end of another block."""
    load, other, call = bytes.fromhex("488b4018"), bytes.fromhex("90"), bytes.fromhex("ffd0")
    writes = [1 << RAX, 1 << R12, 0]
    assert slots_of([F], code=[load, other, call], writes=writes).slot_of(F + 8) == Slot(FIELD, 0x18)
    assert slots_of([F], code=[load, load, call], writes=[1 << RAX, 1 << RAX, 0]).slot_of(F + 8) == Slot(FIELD, 0x18)
    assert slots_of([F], code=[load, other, call], writes=[1 << R12, 1 << RAX, 0]).slot_of(F + 8) is None, "another one"
    slots = slots_of([F], code=[load, other, call], writes=writes)
    slots.listing.kind[1] = CALL_INDIRECT
    assert slots.slot_of(F + 8) is None

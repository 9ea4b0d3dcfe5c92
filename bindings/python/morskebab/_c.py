"""The structs and functions of morskebab.h for ctypes, and the library that holds them."""
import ctypes
import os
import pathlib
from ctypes import POINTER, Structure, c_bool, c_double, c_int8, c_int32, c_int64, c_size_t, c_uint8, c_uint16, c_uint32, c_uint64

PARTNERS = 16
# MKB_VERSION: 10,000 x major + 100 x minor + patch
VERSION = 30000


class CAmount(Structure):
    _fields_ = [("currency", c_int32), ("scale", c_int32), ("coefficient", c_int64)]


class CDate(Structure):
    _fields_ = [("year", c_int32), ("month", c_int32), ("day", c_int32)]


class CBook(Structure):
    _fields_ = [("currency", c_int32), ("count", c_int32), ("weights", c_uint32 * PARTNERS), ("net", c_int64), ("card", c_int64), ("settled", c_int64 * PARTNERS)]


class CColumns(Structure):
    _fields_ = [("net", c_double), ("tax", c_double)]


class CLine(Structure):
    _fields_ = [("code", c_uint8 * 3), ("places", c_uint8), ("digits", c_uint8), ("figures", c_uint64)]


def _answer(name: str, *fields: tuple) -> type:
    """An answer: the refusal, the date blamed, and the values."""
    return type(name, (Structure,), {"_fields_": [("refusal", c_uint8), ("blamed", c_uint8), *fields]})


CWhole = _answer("CWhole", ("value", c_int64))
CAmountAnswer = _answer("CAmountAnswer", ("amount", CAmount))
COrder = _answer("COrder", ("order", c_int8))
CDays = _answer("CDays", ("days", c_uint32))
CWritten = _answer("CWritten", ("length", c_uint64))
CSplit = _answer("CSplit", ("net", CAmount), ("tax", CAmount), ("gross", CAmount))
CRowAnswer = _answer("CRowAnswer", ("net", CAmount), ("tax", CAmount))
CDouble = _answer("CDouble", ("value", c_double))
COpened = _answer("COpened", ("book", CBook))
CMoved = _answer("CMoved", ("book", CBook), ("payouts", c_uint64 * PARTNERS))
CTotals = _answer("CTotals", ("totals", c_uint64 * PARTNERS))
CRan = _answer("CRan", ("book", CBook), ("served", c_uint64))
CEnd = _answer("CEnd", ("end", c_uint64))
CStatement = _answer("CStatement", ("first", c_uint64), ("count", c_uint64), ("sum", c_int64))
CFirst = _answer("CFirst", ("first", c_uint64))
CAnyStatement = _answer("CAnyStatement", ("version", c_uint16), ("first", c_uint64), ("count", c_uint64), ("sum", c_int64))


class CStep(Structure):
    _fields_ = [("next", c_uint64), ("ended", c_bool), ("place", c_uint16), ("currency", c_uint16), ("coefficient", c_int64)]


class CAnyStep(Structure):
    _fields_ = [("next", c_uint64), ("ended", c_bool), ("place", c_uint16), ("currency", c_uint16), ("reason", c_uint16), ("coefficient", c_int64)]


def _lent(kind: type) -> tuple:
    """A list that is lent: where it starts, and its length."""
    return POINTER(kind), c_size_t


# each function's answer and parameters, as in morskebab.h
FUNCTIONS = {
    "mkb_version": (c_uint32,),
    "mkb_round": (CWhole, c_int64, c_int64, c_int64, c_int64),
    "mkb_currency": (CLine, c_int64),
    "mkb_currency_of": (c_uint8, *_lent(c_uint8)),
    "mkb_read": (CAmountAnswer, c_int64, *_lent(c_uint8)),
    "mkb_write": (CWritten, CAmount, *_lent(c_uint8)),
    "mkb_sum": (CAmountAnswer, CAmount, CAmount),
    "mkb_order": (COrder, CAmount, CAmount),
    "mkb_negate": (CAmountAnswer, CAmount),
    "mkb_rescale": (CAmountAnswer, CAmount, c_int64, c_int64),
    "mkb_convert": (CAmountAnswer, CAmount, c_int64),
    "mkb_convert_by": (CAmountAnswer, CAmount, c_int64, c_int64),
    "mkb_date_exists": (c_bool, CDate),
    "mkb_day_count": (CDays, c_int64, CDate, CDate),
    "mkb_interest": (CAmountAnswer, CAmount, c_int64, c_int64, CDate, CDate, c_int64),
    "mkb_compound": (c_uint8, CAmount, c_int64, c_int64, *_lent(c_int64)),
    "mkb_tax_from_net": (CSplit, CAmount, c_int64, c_int64),
    "mkb_tax_from_gross": (CSplit, CAmount, c_int64, c_int64),
    "mkb_net_for": (CSplit, CAmount, c_int64, c_int64),
    "mkb_row": (CRowAnswer, CColumns, c_int64, c_int64, c_int64),
    "mkb_export": (CDouble, CAmount),
    "mkb_share": (c_uint8, CAmount, *_lent(c_uint32), *_lent(c_int64)),
    "mkb_vouchers": (c_uint8, c_int64, *_lent(c_uint32), *_lent(c_uint32)),
    "mkb_open": (COpened, c_int64, *_lent(c_uint32)),
    "mkb_post": (CMoved, CBook, CAmount),
    "mkb_refund": (CMoved, CBook, CAmount),
    "mkb_new_card": (CMoved, CBook, *_lent(c_uint32)),
    "mkb_running_totals": (CTotals, CBook),
    "mkb_write_statement": (CEnd, c_int64, *_lent(c_uint16), *_lent(c_int64), *_lent(c_uint8), c_int64),
    "mkb_check_statement": (CStatement, *_lent(c_uint8)),
    "mkb_first_payout": (CFirst, *_lent(c_uint8)),
    "mkb_payout_at": (CStep, *_lent(c_uint8), c_int64),
    "mkb_write_reasons": (CEnd, c_int64, *_lent(c_uint16), *_lent(c_uint16), *_lent(c_int64), *_lent(c_uint8), c_int64),
    "mkb_check_any": (CAnyStatement, *_lent(c_uint8)),
    "mkb_reasoned_at": (CAnyStep, *_lent(c_uint8), c_int64, c_int64),
    "mkb_run": (CRan, CBook, *_lent(c_bool), *_lent(c_int64), *_lent(c_uint64), *_lent(c_uint8)),
}


def load() -> ctypes.CDLL:
    """The library of MORSKEBAB_LIBRARY, or the one inside the package, or, in the repository itself, the one that `check` builds in its target
    folder. ImportError where it is of another version than this module."""
    here = pathlib.Path(__file__).resolve().parent
    inside, built = here / "libmorskebab.so", here.parents[2] / "target" / "bindings" / "libmorskebab.so"
    library = ctypes.CDLL(os.environ.get("MORSKEBAB_LIBRARY", str(inside if inside.exists() else built)))
    for name, (answer, *parameters) in FUNCTIONS.items():
        function = getattr(library, name)
        function.restype = answer
        function.argtypes = parameters
    if library.mkb_version() != VERSION:
        raise ImportError(f"the library is of version {library.mkb_version()}, and this module of version {VERSION}")
    return library


library = load()

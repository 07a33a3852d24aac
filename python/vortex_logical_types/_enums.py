# SPDX-License-Identifier: Apache-2.0
# SPDX-FileCopyrightText: Copyright the Vortex contributors

"""The enumerations of the package."""

from __future__ import annotations

import enum
from typing import Any, Optional


class Named(enum.Enum):
    """An enumeration whose members have the text that is their name in small letters. A member is found by it too."""

    def __str__(self) -> str:
        return self.name.lower()

    @classmethod
    def _missing_(cls, value: object) -> Any:
        return next((it for it in cls if str(it) == value), None)


class PType(Named):
    """A primitive type. Its value is the number that messages contain for it.

    >>> DType.primitive(PType.I16), PType.I16.value, PType("i16"), str(PType.I16)
    (DType('i16'), 5, <PType.I16: 5>, 'i16')
    """

    U8, U16, U32, U64, I8, I16, I32, I64, F16, F32, F64 = range(11)


class Kind(Named):
    """The kind of a `DType`. Its value is the number that a `Node` has for it.

    >>> DType("list(u8)").kind is Kind.LIST, str(Kind.LIST)
    (True, 'list')
    """

    NULL, BOOL, PRIMITIVE, DECIMAL, UTF8, BINARY, LIST, FIXED_SIZE_LIST, MAP, STRUCT, UNION, VARIANT, EXTENSION = range(1, 14)


class TimeUnit(Named):
    """The unit in which dates, times and timestamps count. Its value is the number that their metadata has.

    >>> DType.date(TimeUnit.DAYS), TimeUnit.DAYS.value, f"{TimeUnit.DAYS:>8}"
    (DType('vortex.date[0x04](i32)'), 4, '    days')
    """

    NANOSECONDS, MICROSECONDS, MILLISECONDS, SECONDS, DAYS = range(5)


class Element(enum.Enum):
    """The type of `ELEMENT`, which is the step of a path into the elements of a list. Its text is `[]`.

    >>> FieldPath("lines.[].sku").parts
    ['lines', ELEMENT, 'sku']
    """

    ELEMENT = "[]"

    def __repr__(self) -> str:
        return "ELEMENT"

    def __str__(self) -> str:
        return self.value


# The step of a path into the element of a list.
ELEMENT = Element.ELEMENT


class ErrorKind(Named):
    """The kind of an error. The value of a kind of the library's errors is the library's number, from 0 to 36, and that
    of a kind of the interface's errors is its text.

    >>> ErrorKind.FIELD_NOT_FOUND.number, ErrorKind(16), str(ErrorKind.TOO_DEEP), ErrorKind.TOO_DEEP.number
    (16, <ErrorKind.FIELD_NOT_FOUND: 16>, 'too_deep', None)

    The errors of the library:

         0  OUT_OF_MEMORY  an allocation failed, or a count of owners is at its maximum
         1  PRECISION_ZERO  the precision of a decimal is 0
         2  PRECISION_TOO_LARGE  the precision of a decimal is above 76
         3  SCALE_TOO_LARGE  the scale of a decimal is above 76
         4  SCALE_ABOVE_PRECISION  the scale of a decimal is above its precision
         5  NOT_DECIMAL  the type isn't a decimal type
         6  NOT_PRIMITIVE  the type isn't a primitive type
         7  NOT_DECIMAL_PTYPE  the primitive type isn't a storage type of decimals
         8  BYTES_LENGTH  the number of bytes isn't the width of the integer that is read from them
         9  MAP_KEY_NULLABLE  the key type of a map is nullable
        10  UNION_TYPES_LENGTH  a union has more or fewer types than names
        11  UNION_TAGS_LENGTH  a union has more or fewer tags than names
        12  UNION_EMPTY  a union has no variants
        13  UNION_TAGS_REPEAT  two variants of a union have the same tag
        14  UNION_TOO_MANY  a union without tags has more than 256 variants
        15  UNION_NAMES_REPEAT  two variants of a union have the same name
        16  FIELD_NOT_FOUND  a selected name isn't the name of a field
        17  INDEX_OUT_OF_BOUNDS  the index of a field isn't below the number of fields
        18  DUPLICATE_NAMES  two structs can't be merged, because a name occurs in both of them, or twice in one of them; or fields
                             can't be renamed, because two of them would have the same name
        19  WIDTH_OVERFLOW  the width of a value in bytes is above 2**64 - 1
        20  EXACT_ROOT  a field mask that selects only the root can't be stepped into
        21  ALL_MASK  the field mask that selects all paths has no starting field
        22  METADATA_REFUSED  a plugin doesn't accept the metadata or the storage type of an extension
        23  EXTENSION_ID_DIFFERS  an extension has another id than the one that it is taken for
        24  TYPE_MISSING  the message of a type has no kind
        25  PRIMITIVE_NUMBER  in a message, the number of a primitive type isn't from 0 to 10
        26  PRECISION_RANGE  in a message, the precision of a decimal is above 255
        27  SCALE_RANGE  in a message, the scale of a decimal isn't from -128 to 127
        28  LIST_ELEMENT_MISSING  in a message, a list has no element type
        29  FIXED_ELEMENT_MISSING  in a message, a fixed-size list has no element type
        30  MAP_KEY_MISSING  in a message, a map has no key type
        31  MAP_VALUE_MISSING  in a message, a map has no value type
        32  STRUCT_LENGTHS  in a message, a struct has more or fewer types than names
        33  TYPE_ID_RANGE  in a message, a tag of a union isn't from 0 to 255
        34  STORAGE_MISSING  in a message, an extension has no storage type
        35  EXTENSION_UNREGISTERED  in a message, an extension has an id that isn't registered, and unknown ids aren't allowed
        36  PATH_PART_MISSING  in the message of a path, a part has no kind

    The errors of the interface to the library:

        UNREADABLE  a text can't be read
        NOT_UTF8  a name or an id in a flat message isn't UTF-8
        PRECONDITION  the call has a precondition, which isn't met, for example because the type is of another kind
        TOO_DEEP  a type or a message would be nested more than 128 levels deep
        OUT_OF_RANGE  an argument is out of its range
        ARROW  an Arrow field has no type here, or a type has no Arrow field
    """

    (OUT_OF_MEMORY, PRECISION_ZERO, PRECISION_TOO_LARGE, SCALE_TOO_LARGE, SCALE_ABOVE_PRECISION, NOT_DECIMAL, NOT_PRIMITIVE,
     NOT_DECIMAL_PTYPE, BYTES_LENGTH, MAP_KEY_NULLABLE, UNION_TYPES_LENGTH, UNION_TAGS_LENGTH, UNION_EMPTY, UNION_TAGS_REPEAT,
     UNION_TOO_MANY, UNION_NAMES_REPEAT, FIELD_NOT_FOUND, INDEX_OUT_OF_BOUNDS, DUPLICATE_NAMES, WIDTH_OVERFLOW, EXACT_ROOT,
     ALL_MASK, METADATA_REFUSED, EXTENSION_ID_DIFFERS, TYPE_MISSING, PRIMITIVE_NUMBER, PRECISION_RANGE, SCALE_RANGE,
     LIST_ELEMENT_MISSING, FIXED_ELEMENT_MISSING, MAP_KEY_MISSING, MAP_VALUE_MISSING, STRUCT_LENGTHS, TYPE_ID_RANGE,
     STORAGE_MISSING, EXTENSION_UNREGISTERED, PATH_PART_MISSING) = range(37)
    UNREADABLE = "unreadable"
    NOT_UTF8 = "not_utf8"
    PRECONDITION = "precondition"
    TOO_DEEP = "too_deep"
    OUT_OF_RANGE = "out_of_range"
    ARROW = "arrow"

    @property
    def number(self) -> Optional[int]:
        """The library's number of the error, from 0 to 36, or None for an error of the interface."""
        return self.value if isinstance(self.value, int) else None


# The members by their numbers, for the library.
KINDS, PTYPES, TIME_UNITS = (*Kind,), (*PType,), (*TimeUnit,)

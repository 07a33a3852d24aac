# SPDX-License-Identifier: Apache-2.0
# SPDX-FileCopyrightText: Copyright the Vortex contributors

"""The structs of Arrow's C data interface, for the tests."""
import ctypes

pointer_in = ctypes.PYFUNCTYPE(ctypes.c_void_p, ctypes.py_object, ctypes.c_char_p)(("PyCapsule_GetPointer", ctypes.pythonapi))


class ArrowSchema(ctypes.Structure):
    """The struct of a field or a schema."""


ArrowSchema._fields_ = [
    ("format", ctypes.c_char_p), ("name", ctypes.c_char_p), ("metadata", ctypes.c_char_p), ("flags", ctypes.c_int64),
    ("n_children", ctypes.c_int64), ("children", ctypes.POINTER(ctypes.POINTER(ArrowSchema))),
    ("dictionary", ctypes.POINTER(ArrowSchema)), ("release", ctypes.CFUNCTYPE(None, ctypes.POINTER(ArrowSchema))),
    ("private_data", ctypes.c_void_p),
]


class ArrowArrayStream(ctypes.Structure):
    """The struct of a table."""


ArrowArrayStream._fields_ = [
    ("get_schema", ctypes.CFUNCTYPE(ctypes.c_int, ctypes.POINTER(ArrowArrayStream), ctypes.POINTER(ArrowSchema))),
    ("get_next", ctypes.c_void_p),
    ("get_last_error", ctypes.CFUNCTYPE(ctypes.c_char_p, ctypes.POINTER(ArrowArrayStream))),
    ("release", ctypes.c_void_p),
    ("private_data", ctypes.c_void_p),
]


def schema_in(capsule):
    """The schema in a capsule, which keeps it."""
    return ArrowSchema.from_address(pointer_in(capsule, b"arrow_schema"))


def moved_out(capsule):
    """The schema of a capsule, which is moved out of it. It has to be released."""
    inside, moved = schema_in(capsule), ArrowSchema()
    ctypes.memmove(ctypes.byref(moved), ctypes.byref(inside), ctypes.sizeof(moved))
    inside.release = type(moved.release)()
    return moved


def exported(dtype):
    """The schema of a type, which has to be released."""
    return moved_out(dtype.__arrow_c_schema__())


def release(schema):
    """Releases a schema that wasn't moved out."""
    if schema.release:
        schema.release(schema)

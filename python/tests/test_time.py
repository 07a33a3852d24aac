# SPDX-License-Identifier: Apache-2.0
# SPDX-FileCopyrightText: Copyright the Vortex contributors

"""Dates, times and timestamps."""
import unittest

from vortex_logical_types import DType, ErrorKind, LibraryError, TimeUnit

NS, US, MS, S, DAYS = TimeUnit
# The metadata that a unit has in each type, and the storage type.
DATES = {DAYS: "vortex.date[0x04](i32)", MS: "vortex.date[0x02](i64)"}
TIMES = {S: "vortex.time[0x03](i32)", MS: "vortex.time[0x02](i32)", US: "vortex.time[0x01](i64)", NS: "vortex.time[0x00](i64)"}
TIMESTAMPS = {it: f"vortex.timestamp[0x0{it.value}0300555443](i64)" for it in (NS, US, MS, S)}
# Extensions of other forms, which have neither a unit nor a zone.
OTHERS = (
    "i32", "{a=i8}", "x.date[0x04](i32)", "vortex.date[0x](i32)", "vortex.date[0x05](i32)", "vortex.date[0x03](i32)", "vortex.date[0x0400](i32)",
    "vortex.date[0x04](i64)", "vortex.date[0x04](utf8)", "vortex.time[0x04](i32)", "vortex.time[0x03](i64)", "vortex.time[0xff](i64)",
    "vortex.timestamp[0x](i64)", "vortex.timestamp[0x03](i64)", "vortex.timestamp[0x0300](i64)", "vortex.timestamp[0x030000](i32)",
    "vortex.timestamp[0x040000](i64)", "vortex.timestamp[0x030100](i64)", "vortex.timestamp[0x03000055](i64)",
    "vortex.timestamp[0x030100ff](i64)", "vortex.timestamp[0x030001](i64)",
)


class Time(unittest.TestCase):
    def check(self, make, texts, zone):
        for unit in TimeUnit:
            for nullable in (False, True):
                with self.subTest(unit=unit, nullable=nullable):
                    if unit not in texts:
                        with self.assertRaises(LibraryError) as caught:
                            make(unit, nullable)
                        self.assertIs(caught.exception.kind, ErrorKind.OUT_OF_RANGE)
                        continue
                    dtype = make(unit, nullable)
                    self.assertEqual(dtype.to_source(), texts[unit][:-1] + "?)" * nullable + ")" * (not nullable))
                    self.assertEqual((dtype.time_unit, dtype.time_zone, dtype.is_nullable), (unit, zone, nullable))

    def test_units(self):
        self.assertEqual([it.value for it in TimeUnit], [0, 1, 2, 3, 4])
        self.check(DType.date, DATES, None)
        self.check(DType.time, TIMES, None)
        self.check(lambda unit, nullable: DType.timestamp(unit, "UTC", nullable), TIMESTAMPS, "UTC")

    def test_zones(self):
        for zone in ("", "UTC", "+01:00", "Europe/Berlin", "\xe4", "x" * 300, "x" * 65535):
            self.assertEqual(DType.timestamp(S, zone).time_zone, zone)
        self.assertEqual(DType.timestamp(S), DType("vortex.timestamp[0x030000](i64)"))
        with self.assertRaises(LibraryError) as caught:
            DType.timestamp(S, "x" * 65536)
        self.assertIs(caught.exception.kind, ErrorKind.OUT_OF_RANGE)
        self.assertRaises(UnicodeEncodeError, DType.timestamp, S, "\ud800")

    def test_other_forms_have_neither(self):
        for text in OTHERS:
            self.assertEqual((DType(text).time_unit, DType(text).time_zone), (None, None), text)

    def test_arrow_knows_them(self):
        for dtype in (DType.date(DAYS), DType.time(NS, True), DType.timestamp(US, "UTC", True)):
            self.assertEqual(DType.from_arrow(dtype), dtype)


if __name__ == "__main__":
    unittest.main()

# SPDX-License-Identifier: Apache-2.0
# SPDX-FileCopyrightText: Copyright the Vortex contributors

"""Objects on several threads, in forked children, and at the interpreter's end."""
import concurrent.futures
import gc
import os
import subprocess
import sys
import threading
import time
import unittest
import warnings

from vortex_logical_types import DType, FieldMask, FieldPath, FieldPathSet, Message, Unreadable

THREADS, ROUNDS = 8, 200


def run(program):
    """The status and the output of a program in an interpreter of its own."""
    ran = subprocess.run([sys.executable, "-c", program], capture_output=True, text=True, timeout=120, check=False)
    return ran.returncode, ran.stdout, ran.stderr


class Threads(unittest.TestCase):
    def setUp(self):
        before = sys.getswitchinterval()
        sys.setswitchinterval(1e-6)  # (so that threads change places as often as they can)
        self.addCleanup(sys.setswitchinterval, before)

    def on_threads(self, work):
        """Calls `work` with its number on each of the threads, and raises what one of them raises."""
        with concurrent.futures.ThreadPoolExecutor(THREADS) as pool:
            for it in [pool.submit(work, number) for number in range(THREADS)]:
                it.result(120)

    def test_an_object_is_used_and_collected_on_any_thread(self):
        made = []
        self.on_threads(lambda _: made.append(DType("{a=i8}")))
        self.assertEqual([it.names for it in made], [["a"]] * THREADS)
        self.on_threads(lambda _: (made.pop(), gc.collect()))
        self.assertEqual(made, [])

    def test_eight_threads_share_objects(self):
        whole, path = DType("{a=list({b=i32?, c=utf8})?, d=i8}"), FieldPath("a.[].b")
        paths, mask, message = FieldPathSet(["a.[].b", "d"]), FieldMask.prefix("a"), whole.to_proto()
        wanted = (DType("i32?"), DType("{a=list({b=i32?})?, d=i8}"), DType("{a=list({b=i32?, c=utf8})?, d=i8}?"))

        def work(_):
            for _ in range(ROUNDS):
                self.assertEqual(path.resolve(whole), wanted[0])
                self.assertEqual(whole.project_paths(paths), wanted[1])
                self.assertEqual(whole.with_nullability(True), wanted[2])
                self.assertEqual((whole.names, [*path][0], hash(whole)), (["a", "d"], "a", hash(whole.copy())))
                self.assertEqual(mask.path, FieldPath("a"))
                self.assertEqual(DType.from_proto(message), whole)
                self.assertEqual(Message.from_flat(message.to_flat()), message)
                self.assertRaises(Unreadable, DType, "{a=")

        self.on_threads(work)

    def test_eight_threads_change_one_set(self):
        paths = FieldPathSet()

        def work(number):
            for it in range(ROUNDS):
                paths.insert(FieldPath.from_steps([f"{number}", f"{it}"]))
                self.assertIn(FieldPath.from_steps([f"{number}", f"{it}"]), paths)
                if it % 50 == 0:
                    self.assertGreater(len(paths.copy()), it)
                    self.assertLessEqual({f"{number}"}, {path[0] for path in paths})

        self.on_threads(work)
        self.assertEqual(len(paths), THREADS * ROUNDS)
        self.assertEqual(len({path.to_source() for path in paths}), THREADS * ROUNDS)

    def test_cycles_are_collected_while_others_call(self):
        whole = DType("{a=i8}")

        class Node(list):
            """A list may be part of a cycle."""

        def work(_):
            for _ in range(ROUNDS):
                node = Node([whole.copy(), FieldPathSet(["a"])])
                node.append(node)
                del node
                self.assertEqual(whole.names, ["a"])
                gc.collect(0)

        self.on_threads(work)

    def test_a_forked_child_uses_objects(self):
        """Each child is forked while other threads are in calls."""
        whole, paths, is_over = DType("{a=i8, b=utf8}"), FieldPathSet(["b"]), threading.Event()

        def work():
            while not is_over.is_set():
                whole.project_paths(paths)

        threads = [threading.Thread(target=work) for _ in range(3)]
        for it in threads:
            it.start()
        try:
            for _ in range(20):
                with warnings.catch_warnings():
                    warnings.simplefilter("ignore", DeprecationWarning)  # (of a fork in a process with threads)
                    child = os.fork()
                if child == 0:
                    os._exit(0 if whole.project_paths(paths) == DType("{b=utf8}") else 3)
                until = time.monotonic() + 60
                while (ended := os.waitpid(child, os.WNOHANG)) == (0, 0) and time.monotonic() < until:
                    time.sleep(0.001)
                if ended == (0, 0):
                    os.kill(child, 9)
                    os.waitpid(child, 0)
                self.assertEqual(ended, (child, 0))
        finally:
            is_over.set()
            for it in threads:
                it.join()

    def test_nothing_is_printed_at_the_end(self):
        """The interpreter ends while objects are in a module's globals, in cycles, and in threads that are still at work."""
        program = """
import sys, threading
import vortex_logical_types as v
kept = [v.DType("{a=i8}"), v.FieldPath("a"), v.FieldPathSet(["a"]), v.FieldMask.all(), v.DType("i8").to_proto()]
cycle = [v.DType("utf8"), v.FieldPathSet(["b"])]
cycle.append(cycle)
sys.kept = v.DType("i8")

class Last:
    def __init__(self):
        self.path = v.FieldPath("a.b")
        self.it = self

    def __del__(self, kept=kept):
        kept[2].insert(self.path)

last = Last()

def work():
    paths = v.FieldPathSet()
    while True:
        paths.insert(v.FieldPath("a.b"))
        v.DType("{a=list(i32)}").names

for _ in range(4):
    threading.Thread(target=work, daemon=True).start()
sys.setswitchinterval(1e-6)
print("end")
"""
        for _ in range(5):
            self.assertEqual(run(program), (0, "end\n", ""))


if __name__ == "__main__":
    unittest.main()

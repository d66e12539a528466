"""What is read of the log of valgrind."""
import unittest

from lib.bench.misses import COUNTS, compared, counts_in

LOG = """==7== Cachegrind, a cache and branch-prediction profiler
==7== I   refs:      1,234,567
==7== I1  misses:        9,876
==7== LLi misses:          123
==7== I1  miss rate:      0.80%
==7== D   refs:        500,000  (300,000 rd + 200,000 wr)
==7== D1  misses:        2,000  (  1,500 rd +     500 wr)
==7== LLd misses:          400  (    300 rd +     100 wr)
==7== LL refs:          11,876  ( 11,376 rd +     500 wr)
==7== LL misses:           523  (    423 rd +     100 wr)
==7== Branches:        100,000  ( 90,000 cond +  10,000 ind)
==7== Mispredicts:       3,000  (  2,000 cond +   1,000 ind)
"""


class Misses(unittest.TestCase):
    def test_counts_of_a_log(self) -> None:
        self.assertEqual(list(counts_in(LOG).values()), [1_234_567, 9_876, 2_000, 523, 3_000])
        self.assertEqual(list(counts_in("").values()), [0] * len(COUNTS))

    def test_one_of_many_without_the_start(self) -> None:
        start, whole = dict.fromkeys(COUNTS, 100), dict.fromkeys(COUNTS, 700)
        lines = compared([start, whole], [start, {**whole, "instructions": 100}], 3)
        self.assertEqual(lines[0].split(), "instructions 200.0; the library 0.0; ratio -".split())
        self.assertTrue(lines[1].endswith("ratio 1.00"))


if __name__ == "__main__":
    unittest.main()

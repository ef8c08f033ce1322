"""The plays that docs/play.html has stored: where a schedule opens, and its outcomes by level."""
import unittest

import tree  # noqa: F401  (it puts tools on the path)

import plays

GOOD = {"verdict": "serializable", "levels": {"serializable": 2, "repeatable": 2, "snapshot": 1}, "first": {"serializable": ["a", "b"], "repeatable": ["a", "b"], "snapshot": ["a", "b"]}}
BAD = {"verdict": "not serializable", "levels": {"serializable": 0, "repeatable": 0, "snapshot": 3}, "first": {"serializable": None, "repeatable": None, "snapshot": ["b", "a"]}}
OWN = {"levels": ["repeatable", "repeatable"], "order": ["a", "a"]}


class Plays(unittest.TestCase):
    def test_whether_each_step_is_written_out(self):
        self.assertTrue(plays.is_written_out("buckets 1\ntxn a snapshot\na begin\na read 10\n"))
        self.assertFalse(plays.is_written_out("buckets 1\ntxn a snapshot\na read 10 # a begin\n"))
        self.assertFalse(plays.is_written_out("buckets 1\ntxn a snapshot\na begin\na update 10 @10+1\n"))

    def test_outcomes_by_level(self):
        found = plays.by_level([GOOD, BAD])
        self.assertEqual(found["serializable"], {"orders": 2, "outcomes": [{"verdict": "serializable", "orders": 2, "first": ["a", "b"]}]})
        self.assertEqual([it["orders"] for it in found["snapshot"]["outcomes"]], [3, 1])
        self.assertEqual(plays.by_level([]), {})

    def test_it_opens_at_the_weakest_level_that_has_something_bad(self):
        self.assertEqual(plays.opening(None, OWN, plays.by_level([GOOD, BAD]), False), {"level": "snapshot", "order": ["b", "a"]})

    def test_it_opens_as_it_is_written(self):
        self.assertEqual(plays.opening(None, OWN, plays.by_level([GOOD]), False), {"level": "repeatable", "order": ["a", "a"]})
        self.assertEqual(plays.opening(None, OWN, plays.by_level([GOOD, BAD]), True), {"level": "repeatable", "order": ["a", "a"]})

    def test_it_opens_where_its_page_says(self):
        self.assertEqual(plays.opening({"level": "repeatable", "order": ["b", "a"]}, OWN, plays.by_level([GOOD, BAD]), False), {"level": "repeatable", "order": ["b", "a"]})
        self.assertEqual(plays.opening({"level": "snapshot", "order": None}, OWN, plays.by_level([GOOD, BAD]), False), {"level": "snapshot", "order": ["b", "a"]})


if __name__ == "__main__":
    unittest.main()

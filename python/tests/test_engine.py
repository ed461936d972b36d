"""Tests of the module on the shared library: `python3 -m unittest discover -s python/tests -t python`."""

import re
import unittest
from pathlib import Path

from mishantral import Engine, Kind, LoadRefused, Record, Reply, StuckTasks, TextRefused, records_from_opl

ROOT = Path(__file__).resolve().parents[2]
HEADER = (ROOT / "include" / "mishantral.h").read_text()

LISTING = [
    Record.user(300),
    Record.user(301),
    Record.role(0),
    Record.user_has_role(300, 0),
    Record.user_has_role(301, 0),
    Record.task(0, 0),
    Record.task(1, 0),
    Record.task_open_to(0, 0),
    Record.task_open_to(1, 0),
    Record.task_set(1, {0, 1}),
    Record.before(0, 1),
]

REQUESTS = [
    Record.create_subject(5, 300, {0}),
    Record.create_subject(6, 301, {0}),
    Record.open_order(0, 0),
    Record.claim(5, 0, 1),
    Record.claim(5, 0, 0),
    Record.claim(6, 0, 1),
    Record.done(5, 0, 0),
    Record.claim(5, 0, 1),
    Record.claim(6, 0, 1),
    Record.end_order(0),
    Record.done(6, 0, 1),
    Record.end_order(0),
    Record.end_order(0),
]

# The listing of docs/RULES.md: the reply and place of each request.
EXPECTED = [(0, 0), (0, 0), (0, 0), (14, 1), (0, 0), (14, 1), (0, 0), (15, 1), (0, 0), (6, 0), (0, 0), (0, 0), (4, 0)]


def loaded() -> Engine:
    engine = Engine()
    engine.load(LISTING)
    return engine


class Header(unittest.TestCase):
    """The numbers of this module agree with the header's."""

    def enum(self, name: str) -> dict:
        body = re.search(r"enum %s \{(.*?)\};" % name, HEADER, re.S)
        assert body is not None
        return {key: int(value) for key, value in re.findall(r"MISHANTRAL_(\w+) = (\d+)", body.group(1))}

    def test_replies(self) -> None:
        self.assertEqual(self.enum("mishantral_reply"), {reply.name: reply.value for reply in Reply})

    def test_kinds(self) -> None:
        self.assertEqual(self.enum("mishantral_kind"), {kind.name: kind.value for kind in Kind})


class Listing(unittest.TestCase):
    def test_one_by_one(self) -> None:
        engine = loaded()
        answers = [engine.request(record) for record in REQUESTS]
        self.assertEqual([(a.reply, a.place) for a in answers], EXPECTED)
        self.assertTrue(answers[0])
        self.assertFalse(answers[3])
        self.assertEqual(str(answers[7]), "15 SEPARATION, rule 1")
        rule = answers[7].rule
        assert rule is not None
        self.assertEqual(rule.record(LISTING), Record.task_set(1, {0, 1}))
        self.assertIsNone(answers[9].rule)

    def test_together(self) -> None:
        self.assertEqual(loaded().requests(REQUESTS), [reply for reply, _ in EXPECTED])

    def test_more_than_one_pile(self) -> None:
        checks = [Record.check(5, 0, 0)] * 5000
        self.assertEqual(loaded().requests(checks), [Reply.UNKNOWN] * 5000)

    def test_bytes_of_any_length(self) -> None:
        self.assertEqual(loaded().request(b"\x01").reply, Reply.SHAPE)
        self.assertEqual(loaded().request(b"").reply, Reply.SHAPE)


class Questions(unittest.TestCase):
    def test_figures(self) -> None:
        engine = loaded()
        self.assertEqual(engine.figures(0), Reply.UNKNOWN)
        engine.requests(REQUESTS[:7])
        figures = engine.figures(0)
        self.assertEqual((figures.entries, figures.done), (1, [0]))

    def test_stuck(self) -> None:
        engine = Engine()
        engine.load([*(Record.task(t, 0) for t in range(4)), Record.before(1, 2), Record.before(2, 1), Record.before(0, 3)])
        self.assertEqual(engine.stuck_tasks(0), StuckTasks(stuck=[1, 2], free=[0, 3]))
        self.assertEqual(engine.stuck_tasks(1), Reply.UNKNOWN)


class Policies(unittest.TestCase):
    def test_a_refused_load_raises_and_empties(self) -> None:
        engine = loaded()
        with self.assertRaises(LoadRefused) as refused:
            engine.load([Record.user(300), Record.user(300)])
        self.assertEqual((refused.exception.reply, refused.exception.place), (Reply.TAKEN, 2))
        self.assertEqual(engine.write_policy(), b"")

    def test_written_policy_has_the_requests(self) -> None:
        engine = loaded()
        self.assertTrue(engine.request(Record.add_user(1023, {0})))
        written = list(Record.all_from(engine.write_policy()))
        self.assertIn(Record.user_has_role(1023, 0), written)
        again = Engine()
        again.load(written)
        self.assertEqual(again.write_policy(), engine.write_policy())

    def test_mending(self) -> None:
        good = b"".join(map(bytes, LISTING))
        damaged = good[:16] + b"\xff" * 16 + good[16:] + b"cut"
        mended = Engine().mend(damaged)
        self.assertEqual(mended.policy, good)
        self.assertEqual([(d.place, d.reply) for d in mended.dropped], [(2, Reply.SHAPE), (13, Reply.SHAPE)])

    def test_opl(self) -> None:
        folder = ROOT / "examples" / "opl_loan"
        records = records_from_opl((folder / "policy.xml").read_bytes(), (folder / "tasks.txt").read_bytes())
        engine = Engine()
        engine.load(records)
        with self.assertRaises(TextRefused) as refused:
            records_from_opl(b"<nothing/>")
        self.assertEqual((refused.exception.reply, refused.exception.text), (Reply.TEXT, 1))

    def test_opl_with_all_sections(self) -> None:
        folder = ROOT / "examples" / "opl_leads"
        texts = [(folder / name).read_bytes() for name in ("policy.xml", "tasks.txt")]
        kinds = [record.kind for record in records_from_opl(*texts, all_sections=True)]
        self.assertEqual([kinds.count(kind) for kind in (9, 10, 17, 18)], [1, 1, 2, 5])
        with self.assertRaises(TextRefused):
            records_from_opl(*texts)


class Copies(unittest.TestCase):
    def test_a_copy_is_apart(self) -> None:
        engine = loaded()
        engine.requests(REQUESTS[:3])
        self.assertTrue(engine.copy().request(Record.claim(5, 0, 0)))
        self.assertTrue(engine.request(Record.claim(6, 0, 0)))


class Numbers(unittest.TestCase):
    def test_what_does_not_fit_is_an_error(self) -> None:
        for make in (lambda: Record.user(65536), lambda: Record.task_set(1, [64]), lambda: Record.user(-1)):
            with self.assertRaises(ValueError):
                make()

    def test_limits_are_the_engines(self) -> None:
        engine = Engine()
        engine.load([Record.user(1023)])
        with self.assertRaises(LoadRefused) as refused:
            engine.load([Record.user(1024)])
        self.assertEqual(refused.exception.reply, Reply.RANGE)


if __name__ == "__main__":
    unittest.main()

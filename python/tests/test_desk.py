"""The client of a served desk, tested with a real server."""

import os
import subprocess
import tempfile
import time
import unittest
from pathlib import Path
from typing import List, Optional

from mishantral import Desk, DeskError

ROOT = Path(__file__).resolve().parents[2]


def program() -> Optional[Path]:
    """The program: MISHANTRAL if it is set, else one that was built in this clone."""
    places: List[Path] = [Path(os.environ["MISHANTRAL"])] if "MISHANTRAL" in os.environ else []
    built = Path(os.environ.get("CARGO_TARGET_DIR", ROOT / "target" / "program"))
    places += [built / kind / "mishantral" for kind in ("debug", "release")]
    return next((place for place in places if place.is_file()), None)


@unittest.skipUnless(program(), "the program is not built (tools/program): the client of a served desk is NOT TESTED")
class Served(unittest.TestCase):
    def setUp(self) -> None:
        self.room = tempfile.TemporaryDirectory()
        self.socket = Path(self.room.name) / "desk.http"
        self.server = self.serve()
        self.desk = Desk(f"unix:{self.socket}")

    def serve(self) -> "subprocess.Popen[bytes]":
        journal = Path(self.room.name) / "desk.db"
        server = subprocess.Popen(
            [str(program()), "serve", str(ROOT / "examples" / "first.txt"), "--journal", str(journal), "--http", f"unix:{self.socket}"],
            stdout=subprocess.DEVNULL,
            stderr=subprocess.DEVNULL,
        )
        for _ in range(200):
            if self.socket.exists() and self.answers():
                return server
            time.sleep(0.05)
        self.fail("the desk does not start")

    def answers(self) -> bool:
        try:
            Desk(f"unix:{self.socket}").board()
        except DeskError:
            return False
        return True

    def tearDown(self) -> None:
        self.server.kill()
        self.server.wait()
        self.room.cleanup()

    def test_an_order_by_two_clerks(self) -> None:
        opened = self.desk.ask_all(
            [
                "create subject 1 for user anna with roles clerk",
                "create subject 2 for user bert with roles clerk",
                "open order 7 mill of template plan_change",
                "claim 1 mill test",
                "done 1 mill test",
            ]
        )
        self.assertTrue(all(opened), opened)
        self.assertFalse(self.desk.may("anna", "claim", "mill/sign"))
        self.assertTrue(self.desk.may("bert", "claim", "mill/sign"))
        refused = self.desk.ask("claim 1 mill sign", why=True)
        self.assertFalse(refused)
        self.assertEqual((refused.name, refused.reply, refused.rule), ("SEPARATION", 15, 1))
        self.assertIn("anna has test (done)", refused.why)
        board = self.desk.board()
        self.assertEqual(board["orders"][0]["tasks"][1]["may_claim"], [2])
        self.assertTrue(self.desk.ask("claim 2 mill sign"))

    def test_what_is_wrong_is_told(self) -> None:
        wrong = self.desk.ask("clam 1 mill test")
        self.assertFalse(wrong)
        self.assertEqual(wrong.status, 400)
        self.assertIn('expected "claim"', wrong.why)
        with self.assertRaises(DeskError) as raised:
            self.desk.who("nothing", "test")
        self.assertEqual(raised.exception.status, 404)

    def test_a_key_counts_once_after_a_kill(self) -> None:
        first = self.desk.ask("open order 7 mill of template plan_change", key="k1")
        self.assertTrue(first)
        self.server.kill()
        self.server.wait()
        with self.assertRaises(DeskError) as raised:
            self.desk.board()
        self.assertEqual(raised.exception.status, 0)
        self.server = self.serve()
        again = self.desk.ask("open order 7 mill of template plan_change", key="k1")
        self.assertTrue(again)
        self.assertEqual(again.number, first.number)

    def test_addresses(self) -> None:
        with self.assertRaises(ValueError):
            Desk("desk.http")


if __name__ == "__main__":
    unittest.main()

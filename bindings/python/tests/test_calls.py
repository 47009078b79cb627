import unittest
from concurrent.futures import ThreadPoolExecutor

import tongsthyme

HEAD = b"JOURNAL 1\nCALLERS 2\nELEMENTS 1\nVOLUMES 1\nLATCHES 1\nQUOTA 2 1\nBUDGET 0\nBUDGET 0\nECB 0\nEVENTS\n"
EMPTY = HEAD + b"END 0\n"


class Judge(unittest.TestCase):
    def test_verdicts(self) -> None:
        self.assertEqual(tongsthyme.judge(EMPTY), ("legal", 0, 0, 0))
        self.assertEqual(tongsthyme.judge(b""), ("malformed", 0, 1, 5))
        self.assertEqual(tongsthyme.judge(HEAD + b"0 E0 0 ARM = WAITING\nEND 1\n"), ("illegal", 0, 11, 0))


class Machine(unittest.TestCase):
    def test_opens_legal_journals_only(self) -> None:
        with self.assertRaises(tongsthyme.Illegal) as raised:
            tongsthyme.Machine(HEAD + b"0 E0 0 ARM = WAITING\nEND 1\n")
        self.assertEqual(raised.exception.line, 11)
        with self.assertRaises(tongsthyme.Malformed):
            tongsthyme.Machine(b"JUNK")

    def test_steps(self) -> None:
        with tongsthyme.Machine(EMPTY) as machine:
            self.assertEqual(machine.step(0, "E0", "ARM"), (0, "ARMED", "0 E0 0 ARM = ARMED\n"))
            with self.assertRaises(tongsthyme.NotAdmitted):
                machine.step(1, "E0", "ARM")
            self.assertEqual(machine.step(1, "E0", "POST 7"), (1, "WOKE 0", "1 E0 1 POST 7 = WOKE 0\n"))
            self.assertEqual(machine.object("E0"), (2, f"WORD {2**30 + 7}"))
            self.assertEqual(machine.object("P1"), (0, "STATE 0 FREE 0"))
            self.assertEqual(machine.object("V0"), (0, "VALUE 0"))
            self.assertIsNone(machine.object("E1"))
            self.assertIsNone(machine.object("L"))
            self.assertEqual(machine.events, 2)

    def test_lines_are_a_journal(self) -> None:
        with tongsthyme.Machine(EMPTY) as machine:
            lines = [
                machine.step(caller, name, operation).line
                for caller, name, operation in [
                    (1, "P1", "OPEN"),
                    (0, "P1", "RELEASE 0 9"),
                    (1, "P1", "TEST"),
                    (0, "L", "OBTAIN 0 18446744073709551615 S C"),
                    (0, "V0", "WRITE 4294967295"),
                ]
            ]
        self.assertEqual(lines[2], "1 P1 2 TEST = STATE 0 PRERELEASED 9\n")
        self.assertEqual(lines[3], "0 L 0 OBTAIN 0 18446744073709551615 S C = GRANTED 0\n")
        journal = HEAD + "".join(lines).encode() + b"END 5\n"
        self.assertEqual(tongsthyme.judge(journal), ("legal", 5, 0, 0))

    def test_shows_latches(self) -> None:
        with tongsthyme.Machine(EMPTY) as machine:
            self.assertEqual(machine.step(1, "L", "OBTAIN 0 5 X W").reply, "GRANTED 0")
            self.assertEqual(machine.step(0, "L", "OBTAIN 0 6 X P0").reply, "QUEUED 1")
            self.assertEqual(machine.requests(0)[1], (6, 1, 0, "X", "P0"))
            self.assertEqual(machine.wakes(), [])
            machine.step(1, "L", "RELEASE 0 0 U")
            self.assertEqual(machine.wakes(), [(0, 1, 0, 0)])

    def test_refuses_words(self) -> None:
        with tongsthyme.Machine(EMPTY) as machine:
            for name, operation in [
                ("E0", "WAIT"),
                ("E0", "POST"),
                ("E0", "POST -1"),
                ("X0", "ARM"),
                ("L0", "PURGE 1"),
                ("L", "OBTAIN 0 5 SX C"),
                ("L", "OBTAIN 0 5 S P"),
                ("V0", "WRITE 4294967296"),
                ("E00", "POST 7"),
                ("E0", "POST 007"),
            ]:
                with self.assertRaises(ValueError):
                    machine.step(0, name, operation)

    def test_refuses_other_values(self) -> None:
        with self.assertRaises(TypeError):
            tongsthyme.judge(EMPTY.decode())  # type: ignore[arg-type]
        with self.assertRaises(TypeError):
            tongsthyme.Machine(bytearray(EMPTY))  # type: ignore[arg-type]
        with tongsthyme.Machine(EMPTY) as machine:
            with self.assertRaises(ValueError):
                machine.requests(2**32)
            with self.assertRaises(ValueError):
                machine.step(-1, "E0", "ARM")
            with self.assertRaises(TypeError):
                machine.step("0", "E0", "ARM")  # type: ignore[arg-type]

    def test_is_for_one_thread(self) -> None:
        with tongsthyme.Machine(EMPTY) as machine, ThreadPoolExecutor(1) as other:
            with self.assertRaises(RuntimeError):
                other.submit(machine.step, 0, "E0", "ARM").result()
            self.assertEqual(machine.step(0, "E0", "ARM").reply, "ARMED")

    def test_closed(self) -> None:
        machine = tongsthyme.Machine(EMPTY)
        machine.close()
        machine.close()
        with self.assertRaises(ValueError):
            machine.step(0, "E0", "ARM")


if __name__ == "__main__":
    unittest.main()

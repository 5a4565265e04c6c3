"""Tests of the package toastlagoon: the worked sessions and the two rooms of examples/, and each call once. Needs only Python."""

import copy
import pickle
import struct
import subprocess
import sys
import threading
import unittest
from pathlib import Path

import toastlagoon
from toastlagoon import (Agreement, Answer, Claim, Covariance, Desk, Effect, Error, Fault, Fields, Item, Kind, Outcome, Record, Register,
                         Role, Track, agreement, blake2s256, decide, decide_any, horizontal_sigma, root,
                         session_reason)  # fmt: skip

EXAMPLES = Path(__file__).resolve().parents[3] / "examples"
STEP = 2700


def fields(tags, lat, **more):
    message = bytes([0x8D, 0, 0, 0, 0, 0, 0])
    said = dict(time=1000, lat=lat, lon=0, height=1500, message=message, tags=tags, used=2 ** len(tags) - 1)
    return Fields(**{**said, "covariance": Covariance.diagonal(100.0), **more})


def record(tags, lat):
    return Record(fields(range(1, tags + 1), lat))


WAITING = Record(fields([1, 2], 0, models=[5], spec=3))


class Sessions(unittest.TestCase):
    def performed(self, register, o):
        engine = int(o["engine"])
        numbers = lambda key: [int(word) for word in o[key].split(",") if word != "none"]  # noqa: E731
        if o["op"] == "summary":
            register.summary(engine, int(o["model"]), int(o["spec"]), bytes.fromhex(o["inputs"]))
        elif o["op"] == "convict":
            register.convict(Desk.MANAGER, engine)
        else:
            height = None if o["height"] == "none" else int(o["height"])
            covariance = Covariance(*struct.unpack(">6d", bytes.fromhex(o["cov"])))
            said = dict(time=int(o["time"]), lat=int(o["lat"]), lon=int(o["lon"]), height=height, message=bytes.fromhex(o["message"]))
            cited = dict(used=int(o["used"]), models=numbers("models"), spec=int(o["spec"]))
            register.report(engine, Record(Fields(**said, **cited, tags=numbers("tags"), covariance=covariance)))

    def test_worked_sessions(self):
        for name in ("north", "south", "struck", "quiet", "worked"):
            operations, register, answers = [], Register(), []
            session = (EXAMPLES / f"session/{name}.session").read_text()
            for line in session.splitlines():
                key, value = line.split("=")
                if key == "op":
                    operations.append({})
                operations[-1][key] = value
            for operation in operations:
                try:
                    self.performed(register, operation)
                    answers.append(None)
                except Error as error:
                    answers.append(error.kind)
            whole = Register()
            self.assertEqual(whole.perform(session), answers, name)
            self.assertEqual(whole, register, name)
            printed = "".join(f"answer={kind.value if kind else 0}\n" for kind in answers)
            printed += register.board(Desk.MANAGER) or "transmissions=0\n"
            self.assertEqual(printed, (EXAMPLES / f"session/{name}.stdout").read_text(), name)

    def test_two_rooms(self):
        folder = EXAMPLES / "two_rooms"
        path = {"PYTHONPATH": str(Path(toastlagoon.__file__).parents[1])}
        ran = subprocess.run([sys.executable, folder / "two_rooms.py"], env=path, capture_output=True, text=True, check=True)
        self.assertEqual(ran.stdout, (folder / "expected").read_text())


class Calls(unittest.TestCase):
    def refused(self, kind):
        return Refused(self, kind)

    def test_records(self):
        said = fields((7, 9), -1, lon=-5, models=(5, 5), spec=3, height=None)
        self.assertEqual(Record(said).fields(), said)
        self.assertEqual(Record.from_bytes(Record(said).as_bytes()), Record(said))
        for more in (
            {"message": b""},
            {"tags": (), "used": 0},
            {"tags": (2, 1)},
            {"used": 4},
            {"models": (64,)},
            {"models": (0,) * 5},
        ):
            with self.refused(Kind.MALFORMED_RECORD):
                Record(Fields(**{**vars(fields((1, 2), 0)), **more}))
        for content in (b"", bytes(288)):
            with self.refused(Kind.MALFORMED_RECORD):
                Record.from_bytes(content)

    def test_bytes_that_are_no_record_say_why(self):
        good = record(2, 0).as_bytes()
        self.assertIsNone(Fault.of(good))
        self.assertEqual(Fault.of(good[1:]), Fault.LENGTH)
        self.assertEqual(Fault.of(b""), Fault.LENGTH)
        self.assertEqual(Fault.of(bytes(288)), Fault.MESSAGE_LENGTH)
        self.assertEqual(Fault.of(good[:41] + b"\2" + good[42:]), Fault.TAG_ORDER)

    def test_the_fixes_of_a_board_are_its_lines(self):
        register = Register()
        self.assertEqual(register.fixes(), [])
        for tags, lat, engine in ((1, 0, 1), (2, STEP, 2), (3, 10000 * STEP, 3)):
            register.report(engine, record(tags, lat))
        fixes, records = register.fixes(), list(register.records())
        lines = [line for line in register.board(Desk.MANAGER).splitlines() if line.startswith("role=")]
        self.assertEqual(len(fixes), len(lines))
        for fix, line in zip(fixes, lines):
            held = records[fix.place].record
            said = held.fields()
            self.assertTrue(line.startswith(f"role={fix.role.name.lower()} time={said.time} lat={said.lat} lon={said.lon} "))
            self.assertIn(f"signers={fix.signers:08x}", line)
            self.assertEqual(fix.identity, held.identity(register.inputs(held)))
            if fix.chi_square is not None:
                self.assertTrue(line.endswith("chi2=" + struct.pack(">d", fix.chi_square).hex()))
        refused = next(fix for fix in fixes if fix.role == Role.REFUSED)
        tags = [len(records[place].record.fields().tags) for place in (fixes[refused.against].place, refused.place)]
        self.assertLess(*tags)

    def test_numbers_are_not_cut_off(self):
        wide = [{"time": 2**64}, {"time": -1}, {"lat": 2**31}, {"height": 2**31}, {"used": 2**32}, {"models": (256,)}, {"spec": 65536}]
        for more in wide:
            with self.assertRaises(OverflowError):
                Record(Fields(**{**vars(fields((1, 2), 0)), **more}))
        with self.assertRaises(OverflowError):
            Register().report(2**32 + 1, record(1, 0))
        with self.assertRaises(ValueError):
            record(1, 0).identity(b"")

    def test_what_is_no_number_and_no_bytes_is_a_type_error(self):
        says = lambda **more: Record(Fields(**{**vars(fields((1, 2), 0)), **more}))  # noqa: E731
        for call, words in (
            (lambda: says(time=None), "time is a NoneType and must be an integer"),
            (lambda: says(lat=0.5), "lat is a float and must be an integer"),
            (lambda: says(message="8d"), "message is a str and must be bytes"),
            (lambda: says(covariance=(1.0, "2", 3.0, 4.0, 5.0, 6.0)), "covariance is a str and must be a number"),
            (lambda: Register().join(None), "other is a NoneType and must be a Register"),
            (lambda: Register().report(1, b""), "record is a bytes and must be a Record"),
            (lambda: blake2s256("abc"), "content is a str and must be bytes"),
        ):
            with self.assertRaises(TypeError) as caught:
                call()
            self.assertEqual(str(caught.exception), words)
        for numbers in ((), (1.0, 2.0, 3.0), (1.0,) * 7):
            with self.assertRaises(ValueError):
                says(covariance=numbers)
        with self.assertRaises(OverflowError):
            decide([Item(record(1, 0), bytes(32), bytes(32), standing=-1)])

        class Index:
            def __index__(self):
                return 481370000

        self.assertEqual(says(lat=Index()).fields().lat, 481370000)

    def test_values_are_pickled_and_copied(self):
        register, track = Register(), Track()
        register.report(1, record(2, STEP))
        track.report(1, WAITING)
        for again in (copy.copy, copy.deepcopy, lambda value: pickle.loads(pickle.dumps(value))):
            other, moved = again(register), again(track)
            self.assertEqual(other, register)
            other.convict(Desk.MANAGER, 1)
            self.assertEqual((register.convicted, len(register.records())), (0, 1))
            self.assertEqual(moved.shelf.waiting(), track.shelf.waiting())
            moved.convict(1)
            self.assertEqual((track.convicted, len(track.shelf.waiting())), (0, 1))
            self.assertEqual(again(record(2, STEP)), record(2, STEP))
            error = again(Error(4))
            self.assertEqual((error.kind, str(error)), (Kind.ENGINE_CONVICTED, "engine convicted"))
        with self.assertRaises(TypeError):
            pickle.dumps(track.shelf)

    def test_lists_are_of_what_was_there_at_the_call(self):
        register = Register()
        for engine in range(8):
            register.report(engine, record(2, engine * STEP))
        seen = []
        for held in register.records():
            register.convict(Desk.MANAGER, held.signers.bit_length() - 1)
            seen.append((held.record.fields().tags, held.signers))
        self.assertEqual(sorted(seen), [((1, 2), 1 << engine) for engine in range(8)])

    def test_threads_that_share_a_register_take_its_lock(self):
        register, other, lock = Register(), Register(), threading.Lock()
        for lat in range(40):
            other.report(9, record(3, lat * STEP))

        def report(engine):
            for lat in range(10):
                with lock:
                    register.report(engine, record(2, lat * STEP))

        def join():
            for _ in range(20):
                with lock:
                    register.join(other)

        threads = [threading.Thread(target=report, args=(engine,)) for engine in (1, 2, 3)] + [threading.Thread(target=join)]
        for thread in threads:
            thread.start()
        for thread in threads:
            thread.join()
        self.assertEqual(len(register.records()), 50)
        self.assertEqual(Register.from_bytes(register.as_bytes()), register)

    def test_registers(self):
        register = Register()
        register.report(4, record(2, STEP))
        register.summary(4, 5, 3, bytes([9] * 32))
        self.assertEqual(Register.from_bytes(register.as_bytes()), register)
        self.assertEqual(Register.from_columns(register.to_columns()), register)
        self.assertEqual([*register.records()], [(record(2, STEP), 1 << 4)])
        self.assertEqual([*register.summaries()], [(4, 5, 3, bytes([9] * 32))])
        copied = register.copy()
        copied.report(5, record(2, STEP))
        self.assertNotEqual(copied, register)
        for content in (b"", bytes(37255)):
            with self.refused(Kind.BAD_LENGTH):
                Register.from_bytes(content)
        with self.refused(Kind.BAD_LENGTH):
            Register.from_columns(b"")
        with self.refused(Kind.MALFORMED):
            Register.from_bytes(b"\0" * 6 + b"\x61" + bytes(37249))

    def test_desks_and_convictions(self):
        register = Register()
        register.report(4, record(2, STEP))
        register.report(7, record(2, STEP))
        with self.refused(Kind.ENGINE_OVER_31):
            register.report(32, record(2, STEP))
        with self.refused(Kind.NO_RIGHT):
            register.preview(Desk.CREW, 4)
        with self.refused(Kind.NO_RIGHT):
            register.convict(Desk.ANALYST, 4)
        previewed = register.preview(Desk.ANALYST, 4)
        register.convict(Desk.MANAGER, 4)
        self.assertEqual(register.board(Desk.MANAGER), previewed)
        self.assertEqual(register.convicted, 1 << 4)
        with self.assertRaises(Error) as caught:
            register.report(4, record(2, STEP))
        self.assertEqual((caught.exception.kind, str(caught.exception)), (Kind.ENGINE_CONVICTED, "engine convicted"))
        line = "role=ranked time=1000 lat=2700 lon=0 height=2 weight=2 signers=00000080\n"
        self.assertEqual(register.board(Desk.CREW), "transmission=1\n" + line)
        self.assertEqual(Register().board(Desk.CREW), "")
        self.assertIn("[0.0000000,0.0002700,1.500]", register.map())

    def test_sessions(self):
        register = Register()
        for session, kind in (("op=convict\nengine=7\nop=convict\nengine=07\n", Kind.BAD_LINE), (bytes(65537), Kind.SESSION_TOO_LONG)):
            with self.refused(kind):
                register.perform(session)
        self.assertEqual(register, Register())
        self.assertEqual(register.perform("op=convict\nengine=7\nop=convict\nengine=32\n"), [None, Kind.ENGINE_OVER_31])
        self.assertEqual(register.convicted, 1 << 7)
        self.assertEqual(register.perform(b""), [])
        self.assertIsNone(session_reason(""))
        reason = session_reason("\n")
        self.assertEqual(reason, "line 1: op= is due, then summary, convict or report, then a line feed; found ''\n")

    def test_rooms_join(self):
        north, south = Register(), Register()
        north.report(1, record(1, 0))
        south.report(2, record(1, 0))
        south.convict(Desk.MANAGER, 3)
        north.join(north.lacks(south))
        south.join(north)
        north.join(north)
        self.assertEqual(north, south)
        self.assertEqual(north.lacks(south), Register())

    def test_withheld_records_say_why(self):
        register = Register()
        with self.refused(Kind.MODEL_MISSING):
            register.inputs(WAITING)
        register.summary(1, 5, 3, bytes(32))
        self.assertNotEqual(WAITING.identity(register.inputs(WAITING)), WAITING.identity(bytes(32)))
        register.summary(2, 5, 3, bytes([1] * 32))
        with self.refused(Kind.MODEL_DISPUTED):
            register.inputs(WAITING)
        for model, inputs in ((64, bytes(32)), (5, b"")):
            with self.refused(Kind.BAD_SUMMARY):
                register.summary(1, model, 3, inputs)

    def test_a_fix_waits_beside_a_track(self):
        track = Track()
        self.assertEqual(track.report(1, WAITING), Effect.WAITING)
        self.assertEqual([*track.shelf.waiting()], [(5, 1, WAITING)])
        again = Track.from_bytes(track.as_bytes(), track.shelf.as_bytes())
        self.assertEqual((again.as_bytes(), again.shelf.as_bytes()), (track.as_bytes(), track.shelf.as_bytes()))
        track.summary(2, 5, 3, bytes(32))
        self.assertEqual([*track.shelf.waiting()], [])
        self.assertEqual(track.report(1, WAITING), Effect.DUPLICATE)
        self.assertIn("signers=00000002", track.listing())
        self.assertEqual(track.contested, 0)
        for shelf in (b"", bytes([1]) * 18561):
            with self.refused(Kind.MALFORMED):
                Track.from_bytes(track.as_bytes(), shelf)
        track.convict(2)
        self.assertEqual(track.convicted, 1 << 2)
        with self.refused(Kind.ENGINE_OVER_31):
            track.convict(32)

    def test_decisions(self):
        items = [Item(r, bytes(32), r.identity(bytes(32))) for r in (record(1, 0), record(2, STEP), record(3, 2 * STEP))]
        answer = decide(items)
        self.assertEqual((answer.ranked, answer.dominated, len(answer.refusals)), ((1,), (0,), 1))
        refusal = answer.refusals[0]
        self.assertEqual(refusal[:3], (2, 0, False))
        self.assertGreater(refusal.chi2 or 0, 16.266)
        self.assertEqual(decide_any(items[::-1]).ranked, (1,))
        self.assertEqual(decide([]), Answer((), (), ()))
        with self.refused(Kind.BAD_ITEMS):
            decide(items[:1] * 2)

    def test_measures(self):
        self.assertEqual(blake2s256(b"abc").hex(), "508c5e8c327c14e2e1a72ba34eeb452f37458b209ed63a294d999b4c86675982")
        self.assertEqual(blake2s256(b"").hex(), "69217a3079908094e11121d042354a7c1f55b6482ca1a51e1b250dfd1ed0eef9")
        self.assertEqual((root(9.0), horizontal_sigma(Covariance())), (3.0, 0.0))
        claim = lambda lat, variance: Claim(lat, 0, 1500, Covariance.diagonal(variance))  # noqa: E731
        self.assertEqual(agreement(claim(0, 100.0), claim(STEP, 100.0)).outcome, Outcome.INSIDE)
        self.assertEqual(agreement(claim(0, 100.0), claim(2 * STEP, 100.0)).outcome, Outcome.OUTSIDE)
        self.assertEqual(agreement(claim(0, 0.0), claim(0, 100.0)), Agreement(Outcome.UNMEASURABLE, None, None))


class Refused:
    """A block that must be refused with this kind."""

    def __init__(self, test, kind):
        self.test, self.kind = test, kind

    def __enter__(self):
        return self

    def __exit__(self, kind, error, trace):
        self.test.assertIsInstance(error, Error)
        self.test.assertEqual(error.kind, self.kind)
        return True


if __name__ == "__main__":
    unittest.main()

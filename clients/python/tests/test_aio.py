"""The client for asyncio: the same answers and errors, what a cancelled task leaves, and a group of the program."""

import asyncio
import time
import unittest

import nozhgiva
from fakes import Members, State, Streams, reply_to
from nozhgiva import aio
from nozhgiva.messages import ReplyKind, decode
from running import PATIENCE, Running, free_addresses, needs_program

FAST = nozhgiva.Retry(first=0.05, factor=1.5, most=0.2, jitter=0.5)
SHORT, SOON = 0.6, 20.0


def group_of(members, timeout=SOON, **words):
    return aio.Group(5, members.addresses, timeout=timeout, retry=FAST, **words)


class Tests(unittest.IsolatedAsyncioTestCase):
    """Without the words that asyncio has for callbacks that a busy machine makes wait."""

    async def asyncSetUp(self):
        asyncio.get_running_loop().slow_callback_duration = 60.0


class Sessions(Tests):
    async def paths(self, group):
        async with await group.register() as session:
            self.assertIsNone(await session.put("color", "green"))
            self.assertEqual(await session.get("color"), "green")
            self.assertIs(await session.delete("color"), True)
            self.assertIs(await session.delete("color"), False)
            self.assertIsNone(await session.get("color"))
            with self.assertRaises(nozhgiva.Full):
                await session.put("one-too-many", "x")
            self.assertIsNone(await session.settle())
        with self.assertRaises(nozhgiva.Closed):
            await session.get("color")

    async def test_the_same_answers(self):
        for fake in (Members, Streams):
            with self.subTest(fake), fake(3, State()) as members:
                await self.paths(group_of(members))
        with Members(1, State(version=2)) as members:
            await self.paths(group_of(members, version=2))

    async def test_the_same_errors(self):
        for scheme in ("", "tcp:"):
            with self.subTest(scheme), self.assertRaises(nozhgiva.Unknown) as raised:
                begun = time.monotonic()
                await aio.Group(5, free_addresses(2, scheme), timeout=SHORT, retry=FAST).register()
            self.assertGreaterEqual(time.monotonic() - begun, SHORT)
            self.assertEqual([sight.trouble for sight in raised.exception.seen], ["refused", "refused"])
            with self.assertRaises(nozhgiva.Unresolved):
                await aio.Group(5, [f"{scheme}nowhere.invalid:1", f"{scheme}nowhere.invalid:2"]).register()
        with Members(2, State()) as members:
            async with await group_of(members).register() as session:
                with self.assertRaises(TypeError):
                    await session.put("key", b"bytes")
                with self.assertRaises(ValueError):
                    await session.get("key", timeout=0)

    async def test_what_is_wrong_is_said_within_a_second_and_another_version_found(self):
        for kind in (Members, Streams):
            with self.subTest(kind), kind(3, State(version=2)) as members:
                begun = time.monotonic()
                (await group_of(members).register()).close()
                self.assertLess(time.monotonic() - begun, 1.0)
        notices = []
        with Members(3, State(cluster=6)) as members, self.assertRaises(nozhgiva.Unknown):
            begun = time.monotonic()
            await aio.Group(5, members.addresses, timeout=1.5, notice=lambda text: notices.append((time.monotonic() - begun, text))).register()
        self.assertEqual(len(notices), 1)
        self.assertLess(notices[0][0], 1.0)
        self.assertIn("another group", notices[0][1])
        with Members(3, lambda place, data: [reply_to(decode(data), (place + 1) % 3, ReplyKind.BUSY).encode()]) as members:
            with self.assertRaises(nozhgiva.Misconfigured):
                await group_of(members).register()

    async def test_a_stream_that_ends_is_made_again(self):
        state = State()
        with Streams(2, lambda member, data: state(member, data) + [None]) as members:
            await self.paths(group_of(members))
            self.assertGreaterEqual(sum(members.made), 7)

    async def test_a_cancelled_request_is_open_and_executed_once(self):
        lost = [True]
        state = State(quiet=lambda number: number == 1 and lost[0])
        with Members(2, state) as members:
            async with await group_of(members).register() as session:
                task = asyncio.ensure_future(session.put("color", "green"))
                while session.pending is None:
                    await asyncio.sleep(0.01)
                with self.assertRaises(nozhgiva.NotAsked):
                    await session.get("color", timeout=0.1)
                task.cancel()
                with self.assertRaises(asyncio.CancelledError):
                    await task
                self.assertEqual(session.pending, nozhgiva.Put("color", "green"))
                with self.assertRaises(nozhgiva.Unknown) as raised:
                    await session.get("color", timeout=SHORT)
                self.assertEqual(raised.exception.unsent, nozhgiva.Get("color"))
                lost[0] = False
                self.assertEqual(await session.get("color"), "green")
                self.assertEqual(raised.exception.outcome.kind, nozhgiva.OutcomeKind.OK)
        self.assertEqual(state.executed, [nozhgiva.Register(), nozhgiva.Put("color", "green"), nozhgiva.Get("color")])

    async def test_many_tasks_have_few_sessions(self):
        state = State()
        with Members(2, state) as members:
            async with aio.Pool(group_of(members), 3) as pool:
                await asyncio.gather(*(pool.put(f"key{number}", str(number)) for number in range(40)))
                self.assertEqual((len(state.keys), await pool.get("key7"), await pool.delete("key7")), (40, "7", True))
                async with pool.session() as one, pool.session(), pool.session():
                    with self.assertRaises(nozhgiva.NotAsked):
                        await pool.get("key8", timeout=0.2)
                    one._ledger.lost = "evicted"
                self.assertEqual(await pool.get("key8"), "8")
            self.assertLessEqual(len(state.last), 4)
            with self.assertRaises(nozhgiva.Closed):
                await pool.get("key8")


@needs_program
class Program(Tests):
    async def test_a_group_whose_primary_is_killed(self):
        for scheme, version in (("", 1), ("tcp:", 2)):
            with self.subTest(scheme=scheme, version=version), Running(scheme, version=version) as running:
                async with await aio.Group(5, running.addresses, version=version, timeout=PATIENCE).register() as session:
                    await session.put("color", "green")
                    running.kill(0)
                    self.assertEqual(await session.get("color"), "green")
                    running.start(0)
                    await session.put("color", "v" * nozhgiva.messages.LARGEST_VALUE[version])


if __name__ == "__main__":
    unittest.main()

"""What brings the copy of a store up to what the store is."""
import os
import random
import tempfile
import unittest

from gateway_server import require_all

require_all()

from zurtkvani_client.gateway import backup  # noqa: E402

SIZE = 2**23


class Twin(unittest.IsolatedAsyncioTestCase):
    def setUp(self):
        folder = tempfile.TemporaryDirectory()
        self.addCleanup(folder.cleanup)
        self.path, self.into = (os.path.join(folder.name, name) for name in ("a.store", "copy.store"))
        self.chance = random.Random(3)
        with open(self.path, "wb") as file:
            file.truncate(SIZE)
            file.seek(SIZE // 4)
            file.write(self.chance.randbytes(SIZE // 3))
        backup.copy(self.path, self.into)

    def change(self, count):
        with open(self.path, "r+b", buffering=0) as file:
            for _ in range(count):
                file.seek(self.chance.randrange(SIZE // 4096) * 4096)
                file.write(self.chance.randbytes(4096))

    def require_equal(self):
        with open(self.path, "rb") as one, open(self.into, "rb") as other:
            self.assertTrue(one.read() == other.read(), "the copy isn't what the store is")

    async def test_a_copy_is_brought_up_as_often_as_it_is_asked(self):
        async with backup.twin(self.path, self.into) as brought_up:
            for count in (0, 1, 40, 400):
                self.change(count)
                await brought_up()
                self.require_equal()

    async def test_a_store_that_cant_be_read_makes_no_backup(self):
        async with backup.twin(self.path, self.into) as brought_up:
            await brought_up()
            # What is mapped and not there any more ends the process, as what a disk doesn't give does.
            os.truncate(self.into, 0)
            with self.assertRaises(OSError):
                await brought_up()

    async def test_a_copy_that_isnt_there(self):
        async with backup.twin(self.path, self.into + ".no") as brought_up:
            with self.assertRaises(OSError):
                await brought_up()


if __name__ == "__main__":
    unittest.main()

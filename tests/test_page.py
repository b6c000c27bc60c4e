"""Tests of tools/page.py, whose page is opened in a real browser where Chromium is installed."""
import json
import re
import shutil
import subprocess
import tempfile
import unittest

from support import MEET, ToolTest, read, simulate, tool, write

from worked_rows import row

# node 0 is the home; 1 and 2 read, 1 wants to write, 3 waits, and all but 1 answer
SHARED_BY_TWO = """event 100 0 from 1 #0 GetS 0x80000000 > 1 DataS 0x80000000 at 200 #0
event 101 0 from 2 #0 GetS 0x80000000 > 2 DataS 0x80000000 at 201 #1
event 300 0 from 1 #1 GetX 0x80000000 trap 265 > 0 Inv 0x80000000 at 575 #2 \
> 2 Inv 0x80000000 at 665 #3 > 3 Inv 0x80000000 at 665 #4
event 310 0 from 3 #0 GetS 0x80000000
event 585 0 from 0 #5 InvAck 0x80000000
event 765 0 from 2 #2 InvAck 0x80000000
event 765 0 from 3 #1 InvAck 0x80000000 > 1 DataX 0x80000000 at 865 #6 > 0 Wake 0x80000000 at 775 #7
event 770 0 from 1 #2 PutX 0x80000000
event 775 0 from 0 #7 Wake 0x80000000 > 3 DataS 0x80000000 at 875 #8
event 900 0 from 3 #2 PutS 0x80000000
"""
TIMES = re.compile(r"^event (\d+)|( at )(\d+) #(\d+)|( from \d+ #)(\d+)")


def later(line, number):
    """An event line of the repetition of this number."""
    def shift(found):
        if found[1]:
            return f"event {int(found[1]) + 2000 * number}"
        if found[2]:
            return f" at {int(found[3]) + 2000 * number} #{int(found[4]) + 20 * number}"
        return f"{found[5]}{int(found[6]) + 20 * number}"
    return TIMES.sub(shift, line)


def repeated(count):
    """The events of meet.txt again and again: 51 events and 27 messages each time."""
    lines = [line for line in read(MEET).splitlines(True) if line.startswith("event")]
    lines = [line.replace(" stop exit 0", "") for line in lines]
    return "".join(later(line, number) for number in range(count) for line in lines)


class PageTest(ToolTest):
    name = "page.py"

    def page_of(self, *words, given=None):
        return tool(self.name, *words, given=given).stdout

    def data_of(self, page):
        found = re.search(r'<script id="data" type="application/json">(.*?)</script>', page, re.S)
        return json.loads(found[1])

    def browse(self, page, part="", shot=None):
        """The page as a browser has it once it is drawn."""
        browser = shutil.which("chromium") or shutil.which("chromium-browser")
        if not browser:
            self.skipTest("chromium isn't installed")
        with tempfile.TemporaryDirectory() as room:
            write(f"{room}/page.html", page)
            command = [browser, "--headless", "--no-sandbox", "--disable-gpu",
                       "--disable-dev-shm-usage", f"--user-data-dir={room}/user",
                       "--window-size=1400,700",
                       f"--screenshot={shot}" if shot else "--dump-dom",
                       f"file://{room}/page.html{part}"]
            return subprocess.run(command, capture_output=True, text=True, timeout=120,
                                  check=False, cwd=room).stdout

    def test_surroundings(self):
        self.surroundings()

    def test_nothing_comes_from_elsewhere(self):
        page = self.page_of(MEET)
        self.assertNotRegex(page, r"https?:|//[a-z]+\.|src=|<link|@import|url\(")

    def test_data(self):
        data = self.data_of(self.told(MEET))
        self.assertEqual((data["nodes"], data["last"], len(data["events"])), (3, 1738, 51))
        self.assertEqual(data["entries"]["0"][:4], [
            [11, "Exclusive of 0"], [101, "Busy for 1 to write, 1 left"],
            [101, "Busy for 1 to write, 1 left; waiting: 2 to write"],
            [376, "Exclusive of 1; waiting: 2 to write"]])
        self.assertEqual(data["entries"]["0"][-1], [1532, "Shared by 2"])
        self.assertEqual(data["traps"], [[0, 101, 356], [0, 386, 641], [0, 1067, 1322]])
        self.assertIn([2, 2, 941, "waiting", "GetX 0x80000000"], data["states"])
        self.assertIn("sw x10, 0(x5)", data["texts"])

    def test_entries(self):
        data = self.data_of(self.page_of(given=SHARED_BY_TWO))
        self.assertEqual(data["entries"]["0"], [
            [100, "Shared by 1"], [101, "Shared by 2"], [300, "Busy for 1 to write, 3 left"],
            [310, "Busy for 1 to write, 3 left; waiting: 3 to read"],
            [585, "Busy for 1 to write, 2 left; waiting: 3 to read"],
            [765, "Busy for 1 to write, 1 left; waiting: 3 to read"],
            [765, "Exclusive of 1; waiting: 3 to read"], [770, "Idle; waiting: 3 to read"],
            [775, "Shared by 1"], [900, "Idle"]])

    def entries_of(self, name, *words):
        """The entries of the first block in a worked command of the rows with pointers."""
        worked = row("pointers", name)
        with tempfile.TemporaryDirectory() as room:
            worked.write(room)
            page = tool(self.name, *words, given=worked.out.decode(), folder=room)
        self.assertEqual(page.stderr, "")
        return self.data_of(page.stdout)["entries"]["0"]

    def test_listed_readers(self):
        name = "a listed reader gives its copy back"
        self.assertEqual(self.entries_of(name, "--machine", "m"), [
            [101, "Shared by node 1"], [101, "Shared by node 1, node 2"],
            [305, "Shared by node 2"], [305, "Busy for 3 to write, 1 left"],
            [505, "Exclusive of 3"]])
        self.assertEqual(self.entries_of(name)[:3], [
            [101, "Shared by 1"], [101, "Shared by 2"], [305, "Shared by 1"]])

    def test_more_readers_than_pointers(self):
        name = "a count does not become a list again"
        self.assertEqual(self.entries_of(name, "--machine", "m"), [
            [101, "Shared by node 1"], [101, "Shared by 2"], [305, "Shared by 1"],
            [305, "Busy for 3 to write, 3 left"], [590, "Busy for 3 to write, 2 left"],
            [770, "Busy for 3 to write, 1 left"], [770, "Exclusive of 3"]])

    def test_upgrade_of_a_listed_reader(self):
        self.assertEqual(self.entries_of("two pointers", "--machine", "m"), [
            [11, "Shared by node 0"], [101, "Shared by node 0, node 1"],
            [305, "Busy for 1 to write, 1 left"], [325, "Exclusive of 1"]])

    def test_a_machine_that_is_none(self):
        with tempfile.TemporaryDirectory() as room:
            path = f"{room}/m.json"
            write(path, '{"version": 2, "nodes": 2, "pointers": 5}')
            self.refused("pointers is 5", "--machine", path, MEET)

    def test_a_window(self):
        data = self.data_of(self.page_of("--from", 400, "--to", 900, MEET))
        times = [event[0] for event in data["events"]]
        self.assertEqual((min(times), max(times)), (476, 841))

    def test_arrows_in_a_browser(self):
        drawn = self.browse(self.page_of(MEET))
        self.assertIn(">27 arrows of 27 messages<", drawn)

    def test_the_next_event_of_a_block(self):
        drawn = self.browse(self.page_of(MEET), "#block=0x80000000&from=100&to=700&next=3")
        self.assertIn("cycle 366, node 0: Inv from node 0, sent by the event of cycle 101", drawn)
        self.assertIn("block 0x80000000", drawn)

    def test_click_and_keys(self):
        deeds = """<script>
            const point = { offsetX: x(941), offsetY: lane(2) + 8 };
            canvas.onmousedown(point);
            canvas.onmouseup(point);
            const clicked = at("told").textContent;
            document.onkeydown({ key: "n", target: document.body });
            const next = at("told").textContent;
            document.onkeydown({ key: "+", target: document.body });
            document.body.dataset.did = [clicked, next, view.to - view.from < 1739].join("|");
            </script></body>"""
        drawn = self.browse(self.page_of(MEET).replace("</body>", deeds))
        did = re.search(r'data-did="(.*?)"', drawn, re.S)[1]
        clicked, following, zoomed = did.split("|")
        self.assertTrue(clicked.startswith("cycle 941, node 2: DataX from node 0"), clicked)
        self.assertTrue(following.startswith("cycle 1057, node 0: lw x6, 0(x5) at pc 0x00000010"))
        self.assertEqual(zoomed, "true")

    def test_a_picture(self):
        with tempfile.TemporaryDirectory() as room:
            self.browse(self.page_of(MEET), shot=f"{room}/page.png")
            with open(f"{room}/page.png", "rb") as file:
                content = file.read()
        self.assertEqual(content[:4], b"\x89PNG")
        self.assertGreater(len(content), 20000)

    def test_a_hundred_thousand_events(self):
        drawn = self.browse(self.page_of(given=repeated(1960)))
        self.assertIn(f">{27 * 1960} arrows of {27 * 1960} messages<", drawn)
        ready = int(re.search(r'data-ready="(\d+)"', drawn)[1])
        self.assertLess(ready, 5000)

    def test_more_events(self):
        text = repeated(4000)
        ran = tool(self.name, "--steps", 50000, given=text)
        self.assertIn("steps are left out", ran.stderr)
        data = self.data_of(ran.stdout)
        self.assertLess(data["to"], data["last"])

    def test_of_a_run(self):
        trace = simulate("run", "--trace", "stencil.json")
        drawn = self.browse(self.told(given=trace))
        self.assertIn(">940 arrows of 940 messages<", drawn)


if __name__ == "__main__":
    unittest.main()

"""What the tests of the tools share: the built program, the tools, and runs of the examples."""
import os
import subprocess
import sys
import unittest

TOP = os.path.dirname(os.path.dirname(os.path.abspath(__file__)))
TOOLS = os.path.join(TOP, "tools")
EXAMPLES = os.path.join(TOP, "examples")
MEET = os.path.join(TOP, "tests", "meet.txt")  # `wwt run --trace meet.json`
sys.path.insert(0, TOOLS)


def program():
    """The built program. Where there is none, the test is skipped."""
    path = os.path.abspath(os.environ.get("WWT") or os.path.join(TOP, "crates/wwt/out/wwt"))
    if not os.access(path, os.X_OK):
        raise unittest.SkipTest(f"there is no built program {path}")
    return path


def simulate(*words, folder=EXAMPLES):
    """What the built program writes for these words, in a folder."""
    return subprocess.run([program(), *words], cwd=folder, capture_output=True, text=True,
                          timeout=300, check=False).stdout


def tool(name, *words, given=None, folder=None):
    """A call of a tool: its status, output and error output."""
    command = [sys.executable, os.path.join(TOOLS, name), *map(str, words)]
    return subprocess.run(command, input=given, capture_output=True, text=True, timeout=300,
                          check=False, cwd=folder)


def read(path):
    with open(path, encoding="utf-8") as file:
        return file.read()


def write(path, text):
    with open(path, "w", encoding="utf-8") as file:
        file.write(text)


class ToolTest(unittest.TestCase):
    """A test of a tool of this name. What every tool has to do is tested by `surroundings`."""
    name = None

    def told(self, *words, given=None, folder=None):
        """The output of a call that has to succeed, without any line on standard error."""
        ran = tool(self.name, *words, given=given, folder=folder)
        self.assertEqual((ran.stderr, ran.returncode), ("", 0))
        return ran.stdout

    def refused(self, part, *words, given=None, folder=None):
        """The call says one line with this part, and ends by the status 2."""
        ran = tool(self.name, *words, given=given, folder=folder)
        self.assertEqual(ran.returncode, 2, ran.stderr)
        self.assertEqual(len(ran.stderr.splitlines()), 1, ran.stderr)
        self.assertIn(part, ran.stderr)

    def surroundings(self, *words):
        """Help, a missing file, input of another kind, and a reader that closes the pipe."""
        self.assertIn("usage:", self.told("--help"))
        self.refused("cannot read", "no-such-file", *words)
        self.refused("is no line of a report: 'PNG'", *words, given="PNG\n")
        self.refused("is no line of a report", *words, given="event 5 x step 0x00000000\n")
        self.ends_quietly(MEET, *words)

    def ends_quietly(self, *words):
        """No word where the reader of its output closes the pipe at once."""
        with subprocess.Popen([sys.executable, os.path.join(TOOLS, self.name), *words],
                              stdout=subprocess.PIPE, stderr=subprocess.PIPE) as ran:
            ran.stdout.close()
            self.assertEqual(ran.stderr.read(), b"")
            ran.wait()
        self.assertEqual(ran.returncode, 0)

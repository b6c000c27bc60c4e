"""The worked commands of crates/wwt_rows/data/, for tools that run the built program on them."""
import json
import os

DATA = os.path.join(os.path.dirname(os.path.dirname(os.path.abspath(__file__))),
                    "crates/wwt_rows/data")


class Row:
    """A worked command: its words, its files in a folder, and what is wanted of it as bytes."""

    def __init__(self, told):
        wanted = told["wanted"]
        self.name, self.words, self.status = told["name"], told["words"], wanted["status"]
        self.files = {name: bytes_of(content) for name, content in told.get("files", {}).items()}
        self.given = self.files.pop("-", b"")
        self.out = "".join(line + "\n" for line in wanted["output"]).encode()
        self.error = (wanted["error"] + "\n").encode() if "error" in wanted else b""

    def write(self, folder):
        """Writes the files; standard input is `given`."""
        for name, content in self.files.items():
            with open(os.path.join(folder, name), "wb") as file:
                file.write(content)


def bytes_of(content):
    """The bytes of a file of a row."""
    (kind, value), = content.items()
    if kind == "text":
        return value.encode()
    if kind == "hex":
        return bytes.fromhex(value)
    if kind == "zeros":
        return bytes(value)
    return json.dumps(value).encode()


def row(file, name):
    """The row of this name in a file of rows. It has to want a whole output."""
    with open(os.path.join(DATA, file + ".json"), encoding="utf-8") as data:
        for told in json.load(data)["rows"]:
            if told["name"] == name:
                return Row(told)
    raise LookupError(f"{file}.json has no row '{name}'")

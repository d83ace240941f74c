"""Each tool tells its own first lines where it is asked for help, and which words it takes."""
import contextlib
import importlib
import io
import re
import unittest
from unittest import mock

from uptane_tools.__main__ import tools


class Helps(unittest.TestCase):
    """What each tool says of itself."""

    def test_help(self) -> None:
        for name, path in tools().items():
            module = importlib.import_module(f"uptane_tools.{path.parent.name}.{name}")
            said = io.StringIO()
            with self.subTest(name), mock.patch("sys.argv", [f"tools/run {name}", "--help"]):
                with contextlib.redirect_stdout(said), self.assertRaises(SystemExit) as ended:
                    module.main()
                self.assertEqual(ended.exception.code, 0)
                self.assertIn((module.__doc__ or "").split("\n")[0], said.getvalue())

    def test_how_it_is_called(self) -> None:
        for name, path in tools().items():
            usage = path.read_text(encoding="utf-8").split("\n\n")[1]
            with self.subTest(name):
                self.assertIn(name, re.findall(r"^    tools/run (\S+)", usage, re.M))

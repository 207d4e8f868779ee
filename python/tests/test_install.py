"""The package is installed without a network, and works where it was installed."""

from __future__ import annotations

import importlib.util
import os
import subprocess
import sys
import tempfile
import unittest
import zipfile

import jambulskeg
from jambulskeg.program import find

from .support import environment

FOLDER = os.path.dirname(os.path.dirname(os.path.abspath(__file__)))


class InstallTests(unittest.TestCase):
    def setUp(self) -> None:
        folder = tempfile.TemporaryDirectory()
        self.addCleanup(folder.cleanup)
        self.folder = folder.name

    def test_the_wheel_has_every_module(self) -> None:
        path = os.path.join(FOLDER, "build_backend", "wheel_backend.py")
        spec = importlib.util.spec_from_file_location("wheel_backend", path)
        assert spec is not None and spec.loader is not None
        backend = importlib.util.module_from_spec(spec)
        spec.loader.exec_module(backend)
        with zipfile.ZipFile(os.path.join(self.folder, backend.build_wheel(self.folder))) as wheel:
            names = wheel.namelist()
        self.assertIn("jambulskeg/routing/pywrapcp.py", names)
        self.assertIn("jambulskeg/py.typed", names)
        self.assertIn("jambulskeg/view/page.css", names)
        self.assertIn("jambulskeg/desk/page/desk.js", names)
        self.assertFalse([name for name in names if "__pycache__" in name])
        self.assertEqual(backend.field("version"), jambulskeg.__version__)
        self.assertTrue(backend.build_editable(self.folder).endswith("none-any.whl"))

    @unittest.skipIf(importlib.util.find_spec("pip") is None, "pip is not at hand")
    def test_it_is_installed(self) -> None:
        target = os.path.join(self.folder, "site")
        compiled = {"PYTHONPYCACHEPREFIX": None, "PYTHONDONTWRITEBYTECODE": "1"}  # pip's own bytecode is taken as it is
        subprocess.run(
            [sys.executable, "-m", "pip", "install", "--no-index", "--no-compile", "--quiet", "--target", target,
             FOLDER],
            check=True, env=environment(PIP_DISABLE_PIP_VERSION_CHECK="1", PYTHONPATH=None, **compiled),
            stdout=subprocess.PIPE, stderr=subprocess.PIPE,
        )
        script = "from jambulskeg import model; print(model.__file__, model.solve(model.generate(1)).cost)"
        ran = subprocess.run(
            [sys.executable, "-c", script], cwd=self.folder, stdout=subprocess.PIPE, check=True, text=True,
            env=environment(PYTHONPATH=target, VR_CLI=find()),
        )
        self.assertTrue(ran.stdout.startswith(target), ran.stdout)


if __name__ == "__main__":
    unittest.main()

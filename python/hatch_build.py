"""Adds to the package what pyproject.toml can't name: the licence, the description, and what `make wheel` packs."""
import ast
import os
from pathlib import Path

from hatchling.builders.hooks.plugin.interface import BuildHookInterface
from hatchling.metadata.plugin.interface import MetadataHookInterface


class Description(MetadataHookInterface):
    def update(self, metadata):
        text = ast.get_docstring(ast.parse(Path(self.root, "src/ffosolve/__init__.py").read_text()))
        metadata["readme"] = {"content-type": "text/markdown", "text": f"{text}\n"}


class Files(BuildHookInterface):
    def initialize(self, version, build_data):
        """Includes the licence and, if FFOSOLVE_STAGE names a folder, its programs and libraries (see `make wheel`)."""
        head, files = f"ffosolve-{self.metadata.version}", build_data["force_include"]
        licence = next(filter(os.path.exists, (f"{self.root}/LICENSE", f"{self.root}/../LICENSE")))
        files[licence] = "LICENSE" if self.target_name == "sdist" else f"{head}.dist-info/LICENSE"
        stage = os.environ.get("FFOSOLVE_STAGE")
        if stage:
            build_data.update(pure_python=False, tag="py3-none-manylinux_2_34_x86_64")  # programs need glibc 2.34
            places = {"bin": f"{head}.data/scripts", "lib": f"{head}.data/data/lib", "package": "ffosolve"}
            files.update({f"{stage}/{folder}": place for folder, place in places.items()})

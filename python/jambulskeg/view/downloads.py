"""Files that a page carries within itself, to be saved from there."""

from __future__ import annotations

import base64
from dataclasses import dataclass
from typing import Sequence

from .svg import escaped

__all__ = ["Download", "download_links"]


@dataclass(frozen=True)
class Download:
    """A file: what it is called, its media type, its text, and what it is for in a few words."""

    name: str
    kind: str
    text: str
    words: str

    @property
    def link(self) -> str:
        """The file as an address that needs no network."""
        return f"data:{self.kind};base64,{base64.b64encode(self.text.encode('utf-8', 'replace')).decode('ascii')}"


def download_links(files: Sequence[Download]) -> str:
    """Links to the files of a page."""
    links = "".join(
        f'<li><a download="{escaped(file.name)}" href="{file.link}">{escaped(file.words)}</a></li>' for file in files
    )
    return f'<ul class="files" aria-label="Save this day">{links}</ul>' if files else ""

"""The files of one FRR router, read."""
from __future__ import annotations

from typing import List

from ..common.configuration import Config
from . import adjacencies
from .blocks import take_block
from .lines import Block, blocks_of


def read(name: str, files: List[str]) -> Config:
    """The configuration in a router's files; raises Mistake where one cannot be read."""
    made = Config(name, files)
    blocks: List[Block] = [block for path in files for block in blocks_of(path)]
    for block in blocks:
        take_block(made, block)
    adjacencies.settle(made)
    return made

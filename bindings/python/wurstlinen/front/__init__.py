"""The command `wurstlinen`: what it does with devices by the names of E1.20's parameters.

Everything that asks a device goes through the proved queue and search of the C library.
"""
from __future__ import annotations

from .main import main

__all__ = ["main"]

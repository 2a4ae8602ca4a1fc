"""The parameters of E1.20, E1.37-1 and E1.37-2 by their names, and their values both ways. No C library is needed."""
from __future__ import annotations

from .decoding import Misfit, Reading, decode
from .described import described
from .encoding import encode
from .fields import Parameter
from .table import STANDARD, Table
from .words import WordFault

__all__ = ["Misfit", "Parameter", "Reading", "STANDARD", "Table", "WordFault", "decode", "described", "encode"]

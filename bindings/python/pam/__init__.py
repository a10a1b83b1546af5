"""Persistent ordered maps, sequences and interval sets of 64-bit numbers, and maps from signed keys and from byte strings to such
numbers, with the sum and the greatest of any part at hand.

>>> import pam
>>> sales = pam.Map({540: 12, 541: 7, 545: 30})
>>> before = sales.copy()          # O(1): a snapshot
>>> sales[541] = 100
>>> sales[540:546].sum(), before.sum(540, 546)
(142, 49)
"""
from ._intervals import Intervals
from ._map import Map, SignedMap
from ._seq import Seq
from ._text_map import TextMap

__all__ = ["Intervals", "Map", "Seq", "SignedMap", "TextMap"]

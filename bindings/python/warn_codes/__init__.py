"""The codes of NWS products, read and written by a proved library.

P-VTEC and H-VTEC texts (NWS Instruction 10-1703), UGC texts (10-1702), frames of products
(10-1701), and what the products of an archive say of each event.

>>> from warn_codes import Vtec, Ugc, Reader
>>> vtec = Vtec.read("/O.NEW.KLWX.WS.W.0001.180103T1530Z-180104T0000Z/")
>>> vtec.office, vtec.hazard, str(vtec.begin)
('KLWX', 'WS.W', '180103T1530Z')
>>> [str(zone) for zone in Ugc.read(b"MDZ003>005-031500-").zones]
['MDZ003', 'MDZ004', 'MDZ005']
>>> Ugc.read("MDZ003-04-031500-")
Traceback (most recent call last):
  ...
warn_codes.errors.UgcError: byte 7: no zone, run of zones or expiry begins here
"""

from .codes import DayTime, Hvtec, Minute, Ugc, Vtec, Zone
from .errors import (
    ArgumentError,
    CodeError,
    FrameError,
    NotHvtec,
    NotVtec,
    ReaderClosed,
    UgcError,
    ValueOutOfRange,
)
from .frames import Frame, Line, Segment, products, products_of_file
from .reader import Event, Findings, Found, Gap, Life, Reader, Shown, Step

__all__ = [
    "ArgumentError",
    "CodeError",
    "DayTime",
    "Event",
    "Findings",
    "Found",
    "Frame",
    "FrameError",
    "Gap",
    "Hvtec",
    "Life",
    "Line",
    "Minute",
    "NotHvtec",
    "NotVtec",
    "Reader",
    "ReaderClosed",
    "Segment",
    "Shown",
    "Step",
    "Ugc",
    "UgcError",
    "ValueOutOfRange",
    "Vtec",
    "Zone",
    "products",
    "products_of_file",
]

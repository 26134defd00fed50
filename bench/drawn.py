"""What the scripts of `tools/` draw, for those of this folder."""
import os
import sys

from program import TOP

TOOLS = os.path.join(TOP, "tools")
sys.path.append(TOOLS)

import device_capture
import modbus_capture
import spi_capture
from buses import LENGTH, NOTES, OneWire, bits_of, draws, made, sampled

__all__ = [
    "LENGTH", "NOTES", "OneWire", "TOOLS", "bits_of", "device_capture", "draws", "made", "modbus_capture", "sampled",
    "spi_capture",
]

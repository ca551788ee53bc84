"""Traces for other tools: trace events for Chrome and Perfetto, waves for GTKWave.

A tick is a microsecond. Energies are whole numbers.
"""

from rtdvs.export.chrome import event_lines, events_text
from rtdvs.export.vcd import millionths, vcd_text, wave_lines

__all__ = ["event_lines", "events_text", "millionths", "vcd_text", "wave_lines"]

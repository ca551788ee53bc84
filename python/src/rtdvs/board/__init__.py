"""Boards in milliseconds, cycles and volts, and device trees."""

from rtdvs.board.description import Board, BoardPoint, BoardTask, board_fault, is_measured, points_of
from rtdvs.board.device_tree import Choice, OperatingPoint, OperatingTable, operating_points
from rtdvs.board.reporting import Asked, Load, PairCost, pair_costs, report, run_ticks, unserved
from rtdvs.board.scale import (
    Design, Rounding, Scale, choose_scale, choose_tick, choose_unit, design, machine_of, machine_text, read_design,
    settle, usual_demands, write_design,
)
from rtdvs.board.units import Spent, Units, nanojoules

__all__ = [
    "Asked", "Board", "BoardPoint", "BoardTask", "Choice", "Design", "Load", "OperatingPoint", "OperatingTable",
    "PairCost", "Rounding", "Scale", "Spent", "Units", "board_fault", "choose_scale", "choose_tick", "choose_unit",
    "design", "is_measured", "machine_of", "machine_text", "nanojoules", "operating_points", "pair_costs", "points_of",
    "read_design", "report", "run_ticks", "settle", "unserved", "usual_demands", "write_design",
]

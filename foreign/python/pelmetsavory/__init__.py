"""Proved tetrahedron weights over numpy arrays.

A Grid and a Study say what weights are made of, a Sheet holds the weights, flags, marks and tally of a study, and each other entry of the library
has a function. A tally has a count for each of sixteen workers: whoever runs pieces names itself, 0 to 15. Arrays are converted where nothing is lost
and otherwise refused, their shapes are checked and never changed. A call that is refused raises Refused, which says the question in words, and changes
nothing. `test_study()` is a study that anyone can make again from one number. `read_listing()` has the weights and flags of a stored listing.

>>> import numpy as np, pelmetsavory as pm
>>> table, diagonal = pm.relative_grid_address(np.eye(3))
>>> grid = pm.Grid(2, [1, 1, 1], [[0, 0, 0]], [0, 1])
>>> study = pm.Study(grid, table, 2, [[1.0, 2.0]], [[0.5, 4.0]], points=[1.0, 1.5, 6.0], triplets=[[0, 0, 0]])
>>> sheet = pm.Sheet(study)
>>> sheet.run_piece(1, 0, 0, 1)  # worker 1
>>> sheet.carry_on(3)  # worker 3
>>> sheet.weights.shape, sheet.flags[0, :, 0, 0].tolist(), sheet.tally.tolist()
((2, 1, 3, 2, 2), [1, 0, 1], [0, 1, 0, 3, 0, 0, 0, 0, 0, 0, 0, 0, 0, 0, 0, 0])
>>> sheet.open_counts().tolist()  # of each triplet the entries that carry scattering: on a grid of one point none does
[0]
>>> sheet.run_piece(1, 0, 0, 2)
Traceback (most recent call last):
pelmetsavory.Refused: question 14 is answered no: Is the named triplet or piece on the sheet?
"""
from ._functions import (
    all_relative_grid_address,
    answer,
    average_weights_over_degenerate_sets,
    check_relative_grid_address,
    checked_integration_weights_at_grid_points,
    fill_neighboring_grid_points,
    generated_relative_grid_address,
    grid_index_from_address,
    integration_weight,
    integration_weight_per_triplet,
    integration_weights_at_grid_points,
    is_n,
    matvec_di,
    neighboring_grid_points_many,
    num_channels,
    relative_grid_address,
    set_relative_grid_address,
    tetrahedra_integration_weight,
)
from ._library import Refused, float_mode_ok
from ._listing import read_listing
from ._loads import fill_frequencies, test_study
from ._sheet import Sheet, open_count, open_counts
from ._study import Grid, Shapes, Study
from ._tables import table_fault
from .entries import INTERFACE_VERSION, QUESTIONS

__all__ = [
    "INTERFACE_VERSION",
    "QUESTIONS",
    "Grid",
    "Refused",
    "Shapes",
    "Sheet",
    "Study",
    "all_relative_grid_address",
    "answer",
    "average_weights_over_degenerate_sets",
    "check_relative_grid_address",
    "checked_integration_weights_at_grid_points",
    "fill_frequencies",
    "fill_neighboring_grid_points",
    "float_mode_ok",
    "generated_relative_grid_address",
    "grid_index_from_address",
    "integration_weight",
    "integration_weight_per_triplet",
    "integration_weights_at_grid_points",
    "is_n",
    "matvec_di",
    "neighboring_grid_points_many",
    "num_channels",
    "open_count",
    "open_counts",
    "read_listing",
    "relative_grid_address",
    "set_relative_grid_address",
    "table_fault",
    "test_study",
    "tetrahedra_integration_weight",
]

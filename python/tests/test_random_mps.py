"Random MPS files, and the decks of glpk-utils: the jobs that mps2job.py makes of them say the same, with the same answer (random_mps.py tells how)."
import pytest
from mps_house import House
from random_mps import can_compare, check_random, deck_outcome, decks

COUNT = 20


@pytest.mark.parametrize("seed", range(COUNT))
def test_a_random_file(tmp_path, seed):
    house = House(tmp_path)
    assert check_random(house, seed) in ("optimal", "infeasible", "unbounded", "stopped for overflow") or not house.esolver


@pytest.mark.parametrize("path", decks() or [None])
def test_a_deck_of_glpk_utils(tmp_path, path):
    house = House(tmp_path)
    if path is None or not can_compare(house):
        pytest.skip("no examples of glpk-utils, no glpsol or no esolver")
    deck_outcome(house, path)

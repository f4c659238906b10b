"""Attacks on what is claimed: hostile inputs for every program and command, parties that play at random beside the model, and
code that is changed at the places that a definition has."""

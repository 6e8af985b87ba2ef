"""Buses and recordings that are made up, with what is true of them."""

"""Walks by hand of the functions that hold a reference to boards, which the borrow checker does not cover: two shapes, a loop over a list
(`loops`) and a straight body of calls (`straight`), made from the tables of `tables`."""

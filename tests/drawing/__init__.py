"""What the tests and measurements draw, from words that are the same on every machine.

words       the generator Pcg64, and choices
rows        rows that are drawn and rows that are plain
calls       calls that are drawn, and their mix
choices, asks, machines, moves, damage, events
            lines of `trace` for a whole as it is
histories   small histories, most of them damaged
records     the same histories as other recorders write them
situations  what runs of drawn events have to reach
modules     modules, their texts, and damage to both
"""

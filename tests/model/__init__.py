"""A second reading of docs/FORMATS.md, docs/MODEL.md and docs/PROCEDURES.md, which shares no line with the program.

tables          columns, rows as text, homes
instructions    the instruction table and its texts
modules         modules as bytes and as text, and the rules of the loader
machine         a call: what each instruction does, and what stops it
calls           what a client asks for, and how it is answered
histories       what clients saw of a database, and whether a serial order explains it
whole           partitions, queues, routes, extents and their logs
client_events, machine_events, move_events, look_events
                what each event answers and does
lines           the lines of `trace`

It knows no memory that runs out (46), and no number of a call or stamp without a successor (51).
"""

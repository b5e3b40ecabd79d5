"""The tree over links in plain Python: a second look at what moves in it, written from the rules and from no text of exbr's.

`wire` has the bytes of frames between the bridge and extenders, `extender` one extender, `control` the bridge's queue of
changes, `machine` the world and its steps with the lines of the trace, `schedule` rounds, settling and whole runs, `made` the
input of `make`, `judge` a trace's rules. What is the bridge's alone (which frames pass, members, refusals) comes from the plain
bridge in `bridge.py`.
"""

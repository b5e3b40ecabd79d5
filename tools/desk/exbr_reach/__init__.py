"""`exbr-reach`: who reaches whom, whether or not anybody spoke.

| Module | What it has |
|---|---|
| `masks` | sets of ports as numbers, a bit for each port |
| `moments` | the moments at which one asks, and what is set at each of them |
| `probes` | which frames are sent at each moment, one for all ports that behave alike |
| `playing` | the frames played by the program, and where each of them left |
| `relation` | who reaches whom in a VLAN, as few sets of ports; what one has and another hasn't |
| `answers` | the answers of a topology: by VLAN, moment after moment |
| `during` | frames that are under way while a command is carried out, in drawn orders |
| `wording` | a relation in few lines |
| `policies` | a file of what must never, always or only be |
| `failures` | the loss of extenders and ports, many side by side |
| `question` | one pair, and why |
| `page` | all of it as a page |
| `show` | all of it as lines, or for programs |
| `cli` | the words of the command line |
"""

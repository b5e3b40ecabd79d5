"""The operator's desk: reading what a run of exbr was given and what it wrote, and a second, plain reading of the rules of its bridge.

| Module | What it has |
|---|---|
| `errors` | `DeskError`, the one line with which a tool of the desk ends where its input is broken |
| `plain` | the rules of one VLAN bridge, taken from the plain bridge of the cases, and names of ports |
| `topology` | a topology file: its tree, its rules, its commands, its captures |
| `captures` | captures: classic pcap in both byte orders and both units, and pcapng, read in pieces and by number |
| `frames` | frames in words: addresses, tags, and a line that says what is in one |
| `journal` | the lines of a journal |
| `trace` | the lines of a trace, and the way of each frame in it |
| `runs` | a run: its topology, and the files that it wrote |
| `reading` | the second reading: what the rules make of each record, and why |
| `judge` | the second reading held against the files of a run |
| `counts` | counts of each port, by rule |
| `explain` | why a frame went where it went, in sentences |
| `choose` | which frames are meant |
| `align` | two sequences side by side: what is there, what is missing, what is too many |
| `names` | what ports are called on their switch: `names.toml` beside a topology |
| `short` | numbers and names in short |
| `progress` | a line on the terminal while work is long |
"""

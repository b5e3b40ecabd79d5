"""`exbr-preflight`: everything that can be said of a topology before a run.

| Module | What it has |
|---|---|
| `faults` | the faults of a topology, the first of which is the one that the program names |
| `wording` | a fault in words: what is wrong, what would be right, and which word comes near |
| `verdict` | what the program itself says of the file |
| `tables` | channels and groups below each port of the bridge, read from what the program plays |
| `settling` | beats that the opening and each command take |
| `lint` | what is allowed and looks like a mistake |
| `records` | the same of captures |
| `show` | all of it as lines, or for programs |
| `cli` | the words of the command line |
"""

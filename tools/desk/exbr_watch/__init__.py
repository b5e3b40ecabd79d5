"""exbr-watch: how far a run is.

| Module | What it has |
|---|---|
| `process` | what the system says of a process that runs: bytes read, memory |
| `course` | how far a run is by these, and what is left |
| `causes` | which file a run couldn't read or write |
| `cli` | the words, and the line that is shown |
"""

"""exbr-report: a run as one page.

| Module | What it has |
|---|---|
| `gather` | the files of a run as facts, through the second reading of the rules |
| `facts` | what a page shows, as plain records |
| `rows`, `words` | the frames as columns, and what is said of each |
| `page`, `page.css`, `page.js` | the page |
| `picture_tree`, `picture_time` | its two pictures |
| `colours`, `lists`, `markup` | colours of VLANs, lists of ports, and elements |
"""

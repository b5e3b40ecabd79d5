"""exbr-import: what operators have, as a topology.

| Module | What it has |
|---|---|
| `switch` | a switch as it is found, the intent of a configuration: its ports, VLANs, entries, and what can't be carried over |
| `lines` | a configuration as lines of text, and what of a line may be printed |
| `statements` | grammars as tables of patterns in data: `nxos.table` and `junos.table` |
| `blocks`, `nxos` | a running configuration of NX-OS: its lines, and the switch that they come to |
| `sets`, `junos` | a configuration of Junos in `set` form, in the same way |
| `boxes` | how many ports extenders have |
| `places` | where ports of a configuration stand in a topology |
| `linux` | the answers of `bridge` and `ip` of a Linux bridge as a switch |
| `plan`, `to_plan` | a plan by hand as a switch, and a topology as a plan |
| `folder` | a folder of captures that are named by port |
| `numbers` | VLANs, ports and addresses as configurations write them |
| `change`, `order` | the commands that lead from one configuration to another one, in an order in which none is refused |
| `ends` | whether two topologies come to the same |
| `notes` | what isn't carried over, as lines |
| `text`, `named`, `page` | a switch as the text of a topology, its names, and its change as commands and a page |
| `sources`, `outputs`, `cli` | what is read, what is written, and the words |
"""

"""The third pass: the ports that words name, and what is given twice."""

# A bridge with the external ports b1, b3, b4, b5, and x2.1, x2.2 of an extender on b2.
SITE = "bridge = {ports = 5}\nextender = [{number = 2, on = 'b2', ports = 2}]\n"

UNKNOWN = [
    ("port = [{name = 'b2'}]\n", "UnknownPort at port[0].name"),
    ("port = [{name = 'b6'}]\n", "UnknownPort at port[0].name"),
    ("port = [{name = 'x2.3'}]\n", "UnknownPort at port[0].name"),
    ("port = [{name = 'b1'}, {name = 'x1.1'}]\n", "UnknownPort at port[1].name"),
    ("vlan = [{vid = 5, tagged = ['b2']}]\n", "UnknownPort at vlan[0].tagged"),
    ("vlan = [{vid = 5, tagged = ['b1-3']}]\n", "UnknownPort at vlan[0].tagged"),
    ("vlan = [{vid = 5, tagged = ['b3-6']}]\n", "UnknownPort at vlan[0].tagged"),
    ("vlan = [{vid = 5, tagged = ['x2.1-3']}]\n", "UnknownPort at vlan[0].tagged"),
    ("vlan = [{vid = 5, tagged = ['x3.*']}]\n", "UnknownPort at vlan[0].tagged"),
    ("vlan = [{vid = 5, tagged = ['*', 'x1.1']}]\n", "UnknownPort at vlan[0].tagged"),
    ("vlan = [{vid = 5, untagged = ['b2']}]\n", "UnknownPort at vlan[0].untagged"),
    ("vlan = [{vid = 5, untagged = ['x2.2', 'x2.2-3']}]\n", "UnknownPort at vlan[0].untagged"),
    ("vlan = [{vid = 5, untagged = ['x64.*']}]\n", "UnknownPort at vlan[0].untagged"),
    ("vlan = [{vid = 5, untagged = ['b9'], tagged = ['b9']}]\n", "UnknownPort at vlan[0].tagged"),
    ("static = [{vid = 5, mac = '02-00-00-00-00-01', ports = ['b2']}]\n", "UnknownPort at static[0].ports"),
    ("static = [{vid = 5, mac = '02-00-00-00-00-01', ports = ['b4-6']}]\n", "UnknownPort at static[0].ports"),
    ("static = [{vid = 5, mac = '02-00-00-00-00-01', ports = ['x1.*']}]\n", "UnknownPort at static[0].ports"),
    ("command = [{at = 1, op = 'vlan', vid = 5, tagged = ['b1-2']}]\n", "UnknownPort at command[0].tagged"),
    ("command = [{at = 1, op = 'vlan', vid = 5, untagged = ['x1.*']}]\n", "UnknownPort at command[0].untagged"),
    ("command = [{at = 1, op = 'vlan', vid = 5, untagged = ['b9'], tagged = ['b9']}]\n", "UnknownPort at command[0].tagged"),
    ("command = [{at = 1, op = 'member', vid = 5, port = 'b2', kind = 'tagged'}]\n", "UnknownPort at command[0].port"),
    ("command = [{at = 1, op = 'unmember', vid = 5, port = 'b6'}]\n", "UnknownPort at command[0].port"),
    ("command = [{at = 1, op = 'pvid', vid = 5, port = 'x2.3'}]\n", "UnknownPort at command[0].port"),
    ("command = [{at = 1, op = 'accept', port = 'x1.1', accept = 'all'}]\n", "UnknownPort at command[0].port"),
    ("command = [{at = 1, op = 'filter', port = 'b2', filter = true}]\n", "UnknownPort at command[0].port"),
    ("command = [{at = 1, op = 'isolate', port = 'b2', isolated = true}]\n", "UnknownPort at command[0].port"),
    ("command = [{at = 1, op = 'static', vid = 5, mac = '02-00-00-00-00-01', ports = ['x2.3']}]\n", "UnknownPort at command[0].ports"),
    ("command = [{at = 1, op = 'up', port = 'b2'}]\n", "UnknownPort at command[0].port"),
    ("command = [{at = 1, op = 'up', port = 'b1'}, {at = 1, op = 'down', port = 'b2'}]\n", "UnknownPort at command[1].port"),
    ("captures = {b2 = 'a.pcap'}\n", "UnknownPort at captures.b2"),
    ("captures = {'x2.3' = 'a.pcap'}\n", "UnknownPort at captures.x2.3"),
    ("captures = {b6 = 'a.pcap', b10 = 'a.pcap'}\n", "UnknownPort at captures.b10"),
    ("command = [{at = 1, op = 'unstatic', vid = 5, mac = '02-00-00-00-00-01'}]\n", "ok"),
    ("captures = {b1 = 'a.pcap', 'x2.2' = 'b.pcap'}\n", "ok"),
]

REPEAT = [
    ("port = [{name = 'b1'}, {name = 'b1'}]\n", "Repeat at port[1].name"),
    ("port = [{name = 'x2.1'}, {name = 'b1'}, {name = 'x2.1'}, {name = 'b1'}]\n", "Repeat at port[2].name"),
    ("port = [{name = 'b1'}, {name = 'b1'}, {name = 'b9'}]\n", "Repeat at port[1].name"),
    ("vlan = [{vid = 5}, {vid = 5}]\n", "Repeat at vlan[1].vid"),
    ("vlan = [{vid = 5, last = 9}, {vid = 5}]\n", "Repeat at vlan[1].vid"),
    ("vlan = [{vid = 5, last = 9}, {vid = 7}]\n", "Repeat at vlan[1].vid"),
    ("vlan = [{vid = 5, last = 9}, {vid = 9, last = 12}]\n", "Repeat at vlan[1].vid"),
    ("vlan = [{vid = 5, last = 9}, {vid = 1, last = 5}]\n", "Repeat at vlan[1].vid"),
    ("vlan = [{vid = 7}, {vid = 5, last = 9}]\n", "Repeat at vlan[1].vid"),
    ("vlan = [{vid = 7}, {vid = 20}, {vid = 20}]\n", "Repeat at vlan[2].vid"),
    ("vlan = [{vid = 9}, {vid = 5, last = 9, tagged = ['b9']}]\n", "UnknownPort at vlan[1].tagged"),
    ("vlan = [{vid = 5, last = 9}, {vid = 10}, {vid = 4}]\n", "ok"),
    ("static = [{vid = 1, mac = 'aA-11-22-33-44-55', ports = []}, {vid = 1, mac = 'Aa:11:22:33:44:55', ports = []}]\n", "Repeat at static[1].mac"),
    ("static = [{vid = 1, mac = 'aA-11-22-33-44-55', ports = []}, {vid = 1, mac = 'Aa:11:22:33:44:55', ports = ['b9']}]\n",
     "UnknownPort at static[1].ports"),
    ("static = [{vid = 1, mac = 'aA-11-22-33-44-55', ports = []}, {vid = 2, mac = 'Aa:11:22:33:44:55', ports = []}]\n", "ok"),
    ("static = [{vid = 1, mac = 'aA-11-22-33-44-55', ports = []}, {vid = 1, mac = 'Aa:11:22:33:44:56', ports = []}]\n", "ok"),
    ("captures = {b1 = 'out-b4.pcap'}\n", "Repeat at captures.b1"),
    ("captures = {b1 = 'out-x2.2.pcap'}\n", "Repeat at captures.b1"),
    ("captures = {b1 = 'a.pcap', b3 = 'out-journal.txt'}\n", "Repeat at captures.b3"),
    ("captures = {b1 = 'a.pcap', b3 = 'out-trace.txt'}\n", "Repeat at captures.b3"),
    ("captures = {b1 = 'a.pcap', b3 = 'out-counters.txt'}\n", "Repeat at captures.b3"),
    ("captures = {b1 = 'out-b1.pcap', b9 = 'a.pcap'}\n", "UnknownPort at captures.b9"),
    ("captures = {b1 = 'out-b2.pcap', b3 = 'out-b6.pcap', b4 = 'out-'}\n", "ok"),
    ("captures = {b1 = 'b1.pcap', b3 = 'journal.txt', b4 = 'Out-b1.pcap'}\n", "ok"),
    ("captures = {b1 = 'a.pcap', b3 = 'a.pcap', b4 = 'out-b01.pcap'}\n", "ok"),
]

PREFIXED = [
    ("bridge = {ports = 1, out = 'r/'}\ncaptures = {b1 = 'r/b1.pcap'}\n", "Repeat at captures.b1"),
    ("bridge = {ports = 1, out = 'r/'}\ncaptures = {b1 = 'r/journal.txt'}\n", "Repeat at captures.b1"),
    ("bridge = {ports = 1, out = 'r/'}\ncaptures = {b1 = 'out-b1.pcap'}\n", "ok"),
    ("bridge = {ports = 1, out = ''}\ncaptures = {b1 = 'b1.pcap'}\n", "Repeat at captures.b1"),
    ("bridge = {ports = 1, out = ''}\ncaptures = {b1 = 'b2.pcap'}\n", "ok"),
]

# One fault of the third pass in each table, the last table of the order first in the file; from case to case one is mended.
EARLIER_TABLE = [
    ("captures={b9='a'}\ncommand=[{at=1,op='up',port='b9'}]\nstatic=[{vid=1,mac='02-00-00-00-00-01',ports=['b9']}]\nvlan=[{vid=1},{vid=1}]\nport=[{name='b9'}]\n",
     "UnknownPort at port[0].name"),
    ("captures={b9='a'}\ncommand=[{at=1,op='up',port='b9'}]\nstatic=[{vid=1,mac='02-00-00-00-00-01',ports=['b9']}]\nvlan=[{vid=1},{vid=1}]\n",
     "Repeat at vlan[1].vid"),
    ("captures={b9='a'}\ncommand=[{at=1,op='up',port='b9'}]\nstatic=[{vid=1,mac='02-00-00-00-00-01',ports=['b9']}]\n",
     "UnknownPort at static[0].ports"),
    ("captures={b9='a'}\ncommand=[{at=1,op='up',port='b9'}]\n", "UnknownPort at command[0].port"),
    ("captures={b9='a'}\n", "UnknownPort at captures.b9"),
]

TABLES = {
    "unknown": (SITE, UNKNOWN),
    "repeat": (SITE, REPEAT),
    "prefixed": ("", PREFIXED),
    "earlier table": (SITE, EARLIER_TABLE),
}

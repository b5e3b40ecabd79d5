"""Commands: each fault at each key of each operation."""
from .ports import SITE

ANY = [
    ("command = 1\n", "Kind at command"),
    ("[command]\nat = 1\n", "Kind at command"),
    ("command = [{}, 1]\n", "Kind at command"),
    ("command = []\n", "ok"),
    ("[[command]]\n", "Missing at command[0].op"),
    ("command = [{zoo = 1, at = -1}]\n", "Missing at command[0].op"),
    ("command = [{zoo = 1, at = -1, op = 1}]\n", "Kind at command[0].op"),
    ("command = [{zoo = 1, at = -1, op = ''}]\n", "Name at command[0].op"),
    ("command = [{zoo = 1, at = -1, op = 'Up'}]\n", "Name at command[0].op"),
    ("command = [{zoo = 1, ape = 1, at = -1, op = 'up'}]\n", "Unknown at command[0].ape"),
    ("command = [{op = 'up', port = 3}]\n", "Missing at command[0].at"),
    ("command = [{op = 'up', port = 3, at = '1'}]\n", "Kind at command[0].at"),
    ("command = [{op = 'up', port = 3, at = 1.5}]\n", "Kind at command[0].at"),
    ("command = [{op = 'up', port = 3, at = -1}]\n", "Range at command[0].at"),
    ("command = [{op = 'up', port = 3, at = 4294967296}]\n", "Range at command[0].at"),
    ("command = [{op = 'up', port = 'b1', at = 4294967295}]\n", "ok"),
    ("command = [{op = 'up', port = 'b1', at = 5}, {op = 'up', port = 'b1', at = 4}]\n", "Range at command[1].at"),
    ("command = [{op = 'up', port = 'b1', at = 5}, {op = 'up', port = 'b1', at = 5}]\n", "ok"),
    ("command = [{op = 'up', port = 'b1', at = 5}, {}]\n", "Missing at command[1].op"),
    ("command = [{op = 'up', port = 'b1', at = 5, fate = 1}]\n", "Kind at command[0].fate"),
    ("command = [{op = 'up', port = 'b1', at = 5, fate = 'PX'}]\n", "Name at command[0].fate"),
    ("command = [{op = 'up', port = 'b1', at = 5, fate = 'DTLP'}]\n", "ok"),
    ("command = [{fate = 1, port = 1, op = 'up', at = -1}]\n", "Range at command[0].at"),
    ("command = [{fate = 1, port = 1, op = 'up', at = 1}]\n", "Kind at command[0].port"),
    ("command = [{fate = 1, port = 'b1', op = 'up', at = 1}]\n", "Kind at command[0].fate"),
    ("command = [{at = 1, op = 'up', vid = 1, port = 3}]\n", "Unknown at command[0].vid"),
]

SET_VLAN = [
    ("", "Missing at command[0].vid"),
    ("vid = '9'\n", "Kind at command[0].vid"),
    ("vid = 0\n", "Range at command[0].vid"),
    ("vid = 4095\n", "Range at command[0].vid"),
    ("vid = 9\ntagged = 'b1'\n", "Kind at command[0].tagged"),
    ("vid = 9\ntagged = [1]\n", "Kind at command[0].tagged"),
    ("vid = 9\ntagged = ['']\n", "Name at command[0].tagged"),
    ("vid = 9\nuntagged = 1\n", "Kind at command[0].untagged"),
    ("vid = 9\nuntagged = ['b3-1']\n", "Name at command[0].untagged"),
    ("vid = 9\nport = 'b1'\nlast = 10\n", "Unknown at command[0].last"),
    ("untagged = 1\ntagged = 1\nvid = 0\n", "Range at command[0].vid"),
    ("untagged = 1\ntagged = 1\nvid = 9\n", "Kind at command[0].tagged"),
    ("vid = 9\n", "ok"),
]

PUT_MEMBER = [
    ("", "Missing at command[0].vid"),
    ("vid = true\n", "Kind at command[0].vid"),
    ("vid = 0\n", "Range at command[0].vid"),
    ("vid = 9\n", "Missing at command[0].port"),
    ("vid = 9\nport = ['b1']\n", "Kind at command[0].port"),
    ("vid = 9\nport = 'b1-2'\n", "Name at command[0].port"),
    ("vid = 9\nport = 'b1'\n", "Missing at command[0].kind"),
    ("vid = 9\nport = 'b1'\nkind = true\n", "Kind at command[0].kind"),
    ("vid = 9\nport = 'b1'\nkind = 'all'\n", "Name at command[0].kind"),
    ("vid = 9\nport = 'b1'\nkind = 'tagged'\ntagged = []\n", "Unknown at command[0].tagged"),
    ("kind = 1\nport = 1\nvid = 0\n", "Range at command[0].vid"),
    ("kind = 1\nport = 1\nvid = 9\n", "Kind at command[0].port"),
    ("vid = 9\nport = 'b1'\nkind = 'untagged'\n", "ok"),
]

TAKE_MEMBER = [
    ("", "Missing at command[0].vid"),
    ("vid = []\n", "Kind at command[0].vid"),
    ("vid = 4095\n", "Range at command[0].vid"),
    ("vid = 9\n", "Missing at command[0].port"),
    ("vid = 9\nport = 1\n", "Kind at command[0].port"),
    ("vid = 9\nport = '*'\n", "Name at command[0].port"),
    ("vid = 9\nport = 'b1'\nkind = 'tagged'\n", "Unknown at command[0].kind"),
    ("port = 'b1'\nvid = 9\n", "ok"),
]

SET_PVID = [
    ("port = ''\n", "Missing at command[0].vid"),
    ("port = ''\nvid = '1'\n", "Kind at command[0].vid"),
    ("port = ''\nvid = 0\n", "Range at command[0].vid"),
    ("vid = 9\n", "Missing at command[0].port"),
    ("vid = 9\nport = 1\n", "Kind at command[0].port"),
    ("vid = 9\nport = ''\n", "Name at command[0].port"),
    ("vid = 9\nport = 'b1'\npvid = 9\n", "Unknown at command[0].pvid"),
    ("vid = 9\nport = 'b1'\n", "ok"),
]

SET_ACCEPT = [
    ("accept = 1\n", "Missing at command[0].port"),
    ("accept = 1\nport = 1\n", "Kind at command[0].port"),
    ("accept = 1\nport = 'x1'\n", "Name at command[0].port"),
    ("port = 'b1'\n", "Missing at command[0].accept"),
    ("port = 'b1'\naccept = true\n", "Kind at command[0].accept"),
    ("port = 'b1'\naccept = 'none'\n", "Name at command[0].accept"),
    ("port = 'b1'\naccept = 'all'\nfilter = true\n", "Unknown at command[0].filter"),
    ("port = 'b1'\naccept = 'all'\n", "ok"),
]

SET_FILTER = [
    ("filter = 1\n", "Missing at command[0].port"),
    ("filter = 1\nport = 1\n", "Kind at command[0].port"),
    ("filter = 1\nport = 'x1.0'\n", "Name at command[0].port"),
    ("port = 'b1'\n", "Missing at command[0].filter"),
    ("port = 'b1'\nfilter = 'true'\n", "Kind at command[0].filter"),
    ("port = 'b1'\nfilter = true\naccept = 'all'\n", "Unknown at command[0].accept"),
    ("port = 'b1'\nfilter = true\n", "ok"),
]

ISOLATE = [
    ("isolated = 1\n", "Missing at command[0].port"),
    ("isolated = 1\nport = 1\n", "Kind at command[0].port"),
    ("isolated = 1\nport = 'x0.1'\n", "Name at command[0].port"),
    ("port = 'b1'\n", "Missing at command[0].isolated"),
    ("port = 'b1'\nisolated = 1\n", "Kind at command[0].isolated"),
    ("port = 'b1'\nisolated = true\nfilter = true\n", "Unknown at command[0].filter"),
    ("port = 'b1'\nisolated = true\n", "ok"),
]

PUT_STATIC = [
    ("", "Missing at command[0].vid"),
    ("vid = '9'\n", "Kind at command[0].vid"),
    ("vid = 0\n", "Range at command[0].vid"),
    ("vid = 9\n", "Missing at command[0].mac"),
    ("vid = 9\nmac = 1\n", "Kind at command[0].mac"),
    ("vid = 9\nmac = '01:00-5e:00:00:01'\n", "Name at command[0].mac"),
    ("vid = 9\nmac = '01-00-5e-00-00-01'\n", "Missing at command[0].ports"),
    ("vid = 9\nmac = '01-00-5e-00-00-01'\nports = '*'\n", "Kind at command[0].ports"),
    ("vid = 9\nmac = '01-00-5e-00-00-01'\nports = ['x1.1-65']\n", "Name at command[0].ports"),
    ("vid = 9\nmac = '01-00-5e-00-00-01'\nports = []\nport = 'b1'\n", "Unknown at command[0].port"),
    ("ports = 1\nmac = 1\nvid = 0\n", "Range at command[0].vid"),
    ("ports = 1\nmac = 1\nvid = 9\n", "Kind at command[0].mac"),
    ("fate = 1\nports = 1\nmac = '01-00-5e-00-00-01'\nvid = 9\n", "Kind at command[0].ports"),
    ("vid = 9\nmac = '01-00-5e-00-00-01'\nports = []\n", "ok"),
]

TAKE_STATIC = [
    ("", "Missing at command[0].vid"),
    ("vid = 1.0\n", "Kind at command[0].vid"),
    ("vid = -1\n", "Range at command[0].vid"),
    ("vid = 9\n", "Missing at command[0].mac"),
    ("vid = 9\nmac = ['01-00-5e-00-00-01']\n", "Kind at command[0].mac"),
    ("vid = 9\nmac = '01-00-5e-00-00-1'\n", "Name at command[0].mac"),
    ("vid = 9\nmac = '01-00-5e-00-00-01'\nports = []\n", "Unknown at command[0].ports"),
    ("vid = 9\nmac = '01-00-5e-00-00-01'\n", "ok"),
]

GO = [
    ("", "Missing at command[0].port"),
    ("port = 1\n", "Kind at command[0].port"),
    ("port = 'x1.*'\n", "Name at command[0].port"),
    ("port = 'b1'\nvid = 1\n", "Unknown at command[0].vid"),
    ("port = 'b1'\n", "ok"),
]

# Each operation, and the keys of a command that asks for it.
OPERATIONS = {"vlan": SET_VLAN, "member": PUT_MEMBER, "unmember": TAKE_MEMBER, "pvid": SET_PVID, "accept": SET_ACCEPT, "filter": SET_FILTER,
              "isolate": ISOLATE, "static": PUT_STATIC, "unstatic": TAKE_STATIC, "up": GO, "down": GO}

TABLES = {
    "any": (SITE, ANY),
    **{name: (f"bridge = {{ports = 3}}\n[[command]]\nat = 5\nop = '{name}'\n", rows) for name, rows in OPERATIONS.items()},
}

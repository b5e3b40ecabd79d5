#!/bin/sh
# Writes the captures of this folder by the writers of Wireshark's package (tshark of Debian), once; they are kept as files. The texts in
# which a writer names the machine are blanked.
case ${1-} in
--help | -h) sed -n '2,/^[^#]/s/^# \{0,1\}//p' "$0"; exit 0 ;;
esac
set -e
cd "$(dirname "$0")"
folder=$(mktemp -d)
python3 - "$folder" <<'PYTHON'
import sys
sys.path.insert(0, "..")
from frames import *
first = [(100, F), (100.25, tagged(1)), (101.000001, frame(source=TWO, size=61)), (103.5, frame(TWO, ONE, size=62)), (104, frame(size=63))]
second = [(100.5, frame(TWO, ONE)), (102, frame(source=TWO, size=64)), (104.000002, frame(ONE, TWO))]
open(f"{sys.argv[1]}/first.pcap", "wb").write(capture(*first))
open(f"{sys.argv[1]}/second.pcap", "wb").write(capture(*second))
open(f"{sys.argv[1]}/hosts", "w").write("10.0.0.1 desk\n10.0.0.2 router\n")
with open(f"{sys.argv[1]}/first.txt", "w") as text:
    for at, data in first:
        text.write(f"{int(at)}.{round(at % 1 * 10**9):09}\n0000 {data.hex(' ')}\n")
PYTHON
cp "$folder/first.pcap" first.pcap
cp "$folder/second.pcap" second.pcap
editcap -F pcapng "$folder/first.pcap" editcap.pcapng
editcap -F nsecpcap "$folder/first.pcap" "$folder/nanoseconds.pcap"
editcap -F pcapng "$folder/nanoseconds.pcap" nanoseconds.pcapng
editcap -a 2:'the second packet' -F pcapng "$folder/first.pcap" comments.pcapng
mergecap -F pcapng -I none -w mergecap.pcapng "$folder/first.pcap" "$folder/second.pcap"
tshark -r "$folder/first.pcap" -H "$folder/hosts" -W n -F pcapng -w tshark.pcapng 2>/dev/null
dumpcap -q -i - -n --capture-comment 'made of a classic capture' -w "$folder/dumpcap.pcapng" <"$folder/first.pcap" 2>/dev/null
cp "$folder/dumpcap.pcapng" dumpcap.pcapng
here=$(pwd)
(cd "$folder" && TZ=UTC text2pcap -q -t '%s.%f' first.txt "$here/text2pcap.pcapng")
python3 - *.pcapng <<'PYTHON'
import struct, sys
for name in sys.argv[1:]:
    data = bytearray(open(name, "rb").read())
    at, = 0,
    while at < len(data):
        kind, size = struct.unpack_from("<II", data, at)
        begin = {0x0A0D0D0A: 24, 1: 16}.get(kind)
        option = at + begin if begin else at + size
        while option < at + size - 4:
            code, length = struct.unpack_from("<HH", data, option)
            if code in ((2, 3, 4) if begin == 24 else (12, 15)):
                data[option + 4 : option + 4 + length] = b" " * length
            option += 4 + length + -length % 4
        at += size
    open(name, "wb").write(data)
PYTHON
rm -r "$folder"

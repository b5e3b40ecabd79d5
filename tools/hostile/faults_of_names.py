"""Faults that stand in the folder before the run: outputs and captures that are no files, links, and folders that can't be written."""
import os
import socket

from fault import Faults, needs_root
from folders import BEFORE, NOBODY, Wrong, play, read, write

FAULTS = Faults()
CAPTURE, OUTPUT, LAST = "a.pcap", "out-b1.pcap", "out-journal.txt"


def refused(place, prepare, status, changed=(), more=(), user=None, words=None, again=True):
    """A run of the bridge alone whose folder was prepared so. Outputs of an earlier run are there before, and have to be as they were
    where the run makes none: status 5, 6 or 7 before anything is written."""
    it = place.input("bare")
    before = {name: BEFORE for name in it.whole}
    it.put(place.folder, before)
    prepare(place.folder)
    ran = play(place.program, place.folder, words or it.words, user=user)
    if ran.status == 5:
        if ran.printed != b"exbr: missing a.pcap\n":
            raise Wrong(f"status 5 prints {ran.printed!r}")
    it.judge(place.folder, ran, (status,), before, changed=changed, more=more)
    if status:
        for name in it.whole:
            if name not in changed and read(os.path.join(place.folder, name)) != BEFORE:
                raise Wrong(f"{name} of an earlier run was emptied")
    if again:
        place.clear()
        it.put(place.folder)
        it.is_whole_again(place.program, place.folder)
    return f"{status}; each output as it was" if status else "0; each output is whole"


def replaced(name, make):
    """Puts another thing in the place of a file."""
    def prepare(folder):
        path = os.path.join(folder, name)
        if os.path.lexists(path):
            os.remove(path)
        make(path)
    return prepare


def link_to(target):
    return lambda path: os.symlink(target, path)


def socket_at(path):
    here = os.getcwd()
    os.chdir(os.path.dirname(path))
    with socket.socket(socket.AF_UNIX) as it:
        it.bind(os.path.basename(path))
    os.chdir(here)


def folder_with_a_file(path):
    os.mkdir(path)
    write(os.path.join(path, "keep"), b"kept")


THINGS = {"a folder": os.mkdir, "a fifo": os.mkfifo, "a socket": socket_at, "a link to a device": link_to("/dev/null"),
          "a link to a full device": link_to("/dev/full"), "a link to itself": link_to("it-is-a-loop")}


def put_things():
    for what, make in THINGS.items():
        for which, name in (("the first output", OUTPUT), ("the last output", LAST)):
            def output(place, make=make, name=name):
                more = ["it-is-a-loop"]
                prepare = replaced(name, lambda path: (make(path), os.symlink("it-is-a-loop", os.path.join(os.path.dirname(path), "it-is-a-loop"))))
                return refused(place, prepare, 7, [name], more)
            FAULTS.named(f"{which} is {what}")(output)

        def captured(place, make=make):
            prepare = replaced(CAPTURE, lambda path: (make(path), os.symlink("it-is-a-loop", os.path.join(os.path.dirname(path), "it-is-a-loop"))))
            return refused(place, prepare, 6, [CAPTURE], ["it-is-a-loop"])
        FAULTS.named(f"a capture is {what}")(captured)

        def topology(place, make=make):
            prepare = replaced("t.toml", lambda path: (make(path), os.symlink("it-is-a-loop", os.path.join(os.path.dirname(path), "it-is-a-loop"))))
            return refused(place, prepare, 6, ["t.toml"], ["it-is-a-loop"])
        FAULTS.named(f"the topology is {what}")(topology)


put_things()


@FAULTS.named("a capture is a device without an end")
def device(place):
    return refused(place, replaced(CAPTURE, link_to("/dev/zero")), 6, [CAPTURE])


@FAULTS.named("a capture isn't there")
def missing(place):
    return refused(place, lambda folder: os.remove(os.path.join(folder, CAPTURE)), 5, [CAPTURE])


@FAULTS.named("a capture is a link to nothing")
def dangling(place):
    return refused(place, replaced(CAPTURE, link_to("nothing")), 5, [CAPTURE])


@FAULTS.named("a capture may not be read")
def unreadable(place):
    needs_root()
    return refused(place, lambda folder: os.chmod(os.path.join(folder, CAPTURE), 0), 6, [CAPTURE], user=NOBODY)


@FAULTS.named("an output may not be written")
def unwritable(place):
    needs_root()
    # The other outputs may be.
    def prepare(folder):
        for name in os.listdir(folder):
            os.chmod(os.path.join(folder, name), 0o666)
        os.chmod(os.path.join(folder, LAST), 0o444)
    return refused(place, prepare, 7, user=NOBODY)


@FAULTS.named("the folder may not be written")
def read_only_folder(place):
    needs_root()
    it = place.input("bare")
    it.put(place.folder)
    os.chmod(place.folder, 0o555)
    ran = play(place.program, place.folder, it.words, user=NOBODY)
    os.chmod(place.folder, 0o777)
    it.judge(place.folder, ran, (7,))
    it.is_whole_again(place.program, place.folder)
    return "7; no file was made"


def spelled(place, text, status, prepare=lambda folder: None):
    """A run of another topology. What stands at the outputs' names stays as it was where the status isn't 0."""
    it = place.input("bare")
    files = {**it.files, "t.toml": text.encode()}
    for name, data in {**files, **{name: BEFORE for name in it.whole}}.items():
        write(os.path.join(place.folder, name), data)
    prepare(place.folder)
    kept = {name: read(os.path.join(place.folder, name)) for name in [*it.whole, *files] if os.path.isfile(os.path.join(place.folder, name))}
    ran = play(place.program, place.folder, it.words)
    if ran.status != status or ran.said:
        raise Wrong(f"status {ran.status} in place of {status}: {ran.printed!r} {ran.said!r}")
    if status == 7 and ran.printed != b"exbr: write fault\n":
        raise Wrong(f"status 7 prints {ran.printed!r}")
    for name, data in kept.items() if status else ():
        if read(os.path.join(place.folder, name)) != data:
            raise Wrong(f"{name} has changed")
    return f"{status}; each file as it was" if status else "0; each output is whole"


BARE = "bridge.ports = 3\n[captures]\nb1 = '{}'\nb2 = 'b.pcap'\n"
PREFIX = "bridge = {{ports = 3, out = '{}out-'}}\n[captures]\nb1 = 'a.pcap'\nb2 = 'b.pcap'\n"


def into(name, target=CAPTURE):
    """Puts the bytes of one file at another name."""
    return lambda folder: write(os.path.join(folder, name), read(os.path.join(folder, target)))


@FAULTS.named("a capture is an output, by a dot")
def by_a_dot(place):
    return spelled(place, BARE.format(f"./{OUTPUT}"), 7, into(OUTPUT))


@FAULTS.named("a capture is an output, by two dots")
def by_two_dots(place):
    return spelled(place, BARE.format(f"../it/{LAST}"), 7, into(LAST))


@FAULTS.named("a capture is an output, by its whole name")
def by_the_whole(place):
    return spelled(place, BARE.format(os.path.join(place.folder, LAST)), 7, into(LAST))


@FAULTS.named("a capture is a link to an output")
def link_to_output(place):
    return spelled(place, BARE.format("l.pcap"), 7, lambda folder: (into(OUTPUT)(folder), os.symlink(OUTPUT, os.path.join(folder, "l.pcap"))))


@FAULTS.named("a capture is a link to a link to an output")
def links_to_output(place):
    def prepare(folder):
        into(LAST)(folder)
        os.symlink(LAST, os.path.join(folder, "k.pcap"))
        os.symlink("k.pcap", os.path.join(folder, "l.pcap"))
    return spelled(place, BARE.format("l.pcap"), 7, prepare)


@FAULTS.named("a capture is another name of an output's file")
def hard_link(place):
    def prepare(folder):
        into(LAST)(folder)
        os.link(os.path.join(folder, LAST), os.path.join(folder, "l.pcap"))
    return spelled(place, BARE.format("l.pcap"), 7, prepare)


def output_as_link(make):
    def prepare(folder):
        os.remove(os.path.join(folder, LAST))
        make(os.path.join(folder, CAPTURE), os.path.join(folder, LAST))
    return prepare


@FAULTS.named("an output is a link to a capture")
def output_links(place):
    return spelled(place, BARE.format(CAPTURE), 7, output_as_link(os.symlink))


@FAULTS.named("an output is another name of a capture's file")
def output_hard_links(place):
    return spelled(place, BARE.format(CAPTURE), 7, output_as_link(os.link))


@FAULTS.named("an output is a link to the topology")
def output_is_topology(place):
    return spelled(place, BARE.format(CAPTURE), 7, lambda folder: replaced(LAST, link_to("t.toml"))(folder))


@FAULTS.named("outputs lead to the captures by a linked folder")
def linked_folder(place):
    text = PREFIX.format("w/").replace("a.pcap", OUTPUT)
    return spelled(place, text, 7, lambda folder: (into(OUTPUT)(folder), os.symlink(".", os.path.join(folder, "w"))))


@FAULTS.named("two outputs are links to one file")
def two_links(place):
    def prepare(folder):
        for name in (OUTPUT, LAST):
            replaced(name, link_to("one"))(folder)
        write(os.path.join(folder, "one"), b"one")
    return spelled(place, BARE.format(CAPTURE), 7, prepare)


@FAULTS.named("two outputs are two names of one file")
def two_names(place):
    def prepare(folder):
        os.remove(os.path.join(folder, LAST))
        os.link(os.path.join(folder, OUTPUT), os.path.join(folder, LAST))
    return spelled(place, BARE.format(CAPTURE), 7, prepare)


@FAULTS.named("an output is a link to a file elsewhere")
def link_elsewhere(place):
    def prepare(folder):
        write(os.path.join(folder, "w/there"), BEFORE)
        replaced(LAST, link_to("w/there"))(folder)
    told = spelled(place, BARE.format(CAPTURE), 7, prepare)
    if read(os.path.join(place.folder, "w/there")) != BEFORE:
        raise Wrong("the file elsewhere has changed")
    return told


@FAULTS.named("an output is a link to a file that isn't there")
def link_to_none(place):
    told = spelled(place, BARE.format(CAPTURE), 7, replaced(LAST, link_to("new")))
    if os.path.lexists(os.path.join(place.folder, "new")):
        raise Wrong("a file was made behind the link")
    return told


@FAULTS.named("an output is a link into a folder that isn't there")
def link_to_no_folder(place):
    return spelled(place, BARE.format(CAPTURE), 7, replaced(LAST, link_to("w/new")))


@FAULTS.named("the outputs' folder isn't there")
def no_folder(place):
    return spelled(place, PREFIX.format("w/"), 7)


@FAULTS.named("the outputs' folder is a file")
def folder_is_file(place):
    return spelled(place, PREFIX.format("w/"), 7, lambda folder: write(os.path.join(folder, "w"), b"w"))


@FAULTS.named("the outputs' names are too long")
def long_names(place):
    return spelled(place, PREFIX.format("w" * 300), 7)


@FAULTS.named("standard output is an output's file")
def printed_into(place):
    it = place.input("bare")
    it.put(place.folder, {name: BEFORE for name in it.whole})
    path = os.path.join(place.folder, LAST)
    with open(path, "ab") as out:
        ran = play(place.program, place.folder, it.words, stdout=out)
    if ran.status != 7 or read(path) != BEFORE + b"exbr: write fault\n":
        raise Wrong(f"status {ran.status}, and it holds {read(path)!r}")
    return "7; its line stands behind what was there"

# An image that runs exbr on any x86-64 machine with podman or docker, also if its own C library is another or an older one than
# the program needs.
#
#     podman build -t exbr .
#     cd examples/office && podman run --rm -v "$PWD":/work exbr run topology.toml
#
# With docker: `docker build -t exbr -f Containerfile .`, and `docker run --rm --user "$(id -u):$(id -g)" -v "$PWD":/work exbr ..`.
# Captures are read from, and outputs written to, the folder at /work. The image has what ./install puts in place, also the tools:
# `podman run --rm -v "$PWD":/work --entrypoint exbr-why exbr --help`.

FROM debian:bookworm-slim AS installed
RUN apt-get update && apt-get install -y --no-install-recommends git python3
COPY . /exbr
RUN DESTDIR=/installed /exbr/install /usr/local

FROM debian:bookworm-slim
RUN apt-get update && apt-get install -y --no-install-recommends python3 && rm -rf /var/lib/apt/lists/*
COPY --from=installed /installed/usr/local /usr/local
WORKDIR /work
ENTRYPOINT ["exbr"]

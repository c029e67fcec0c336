#!/bin/sh
# Unpacks the layers of an image, the lowest first, into the new directory `root`, unless extracting
# them could write outside. One list has the entries of all layers, since a later one is written
# through the links of those below it. Absolute links are ordinary in an image, so they are accepted.
for layer in "$@"; do
    LC_ALL=C tar -tvP --numeric-owner --quoting-style=c -f "$layer" || exit
done > list && upath archive --tar-list < list && mkdir root || exit
for layer in "$@"; do
    tar -xf "$layer" -C root || exit
done

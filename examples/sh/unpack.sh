#!/bin/sh
# Unpacks the archive x.tar into the new directory `new`, unless it can't be listed, a program that
# extracts its entries could write outside, or a link leads out. The entries at fault are printed.
LC_ALL=C tar -tvP --numeric-owner --quoting-style=c -f x.tar > list &&
    upath archive --closed --tar-list < list && mkdir new &&
    tar -xf x.tar --no-same-owner --no-same-permissions -C new

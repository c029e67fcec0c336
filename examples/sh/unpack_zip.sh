#!/bin/sh
# Unpacks the archive x.zip into the new directory `new` by Python, unless a program that extracts its
# entries could write outside, or a link leads out. The entries at fault are printed.
python3 examples/python/records.py x.zip > list && upath archive --closed < list &&
    mkdir new && python3 -m zipfile -e x.zip new

#!/bin/sh
# Fails if a link below the directory `tree` leads out of it, or if the tree has a device, and prints
# these paths.
find tree -printf '%y\0%P\0%l\0' > list && upath archive --closed < list

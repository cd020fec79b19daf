#!/bin/sh
# Never ends.
exec sleep 60

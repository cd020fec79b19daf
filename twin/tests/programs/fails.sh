#!/bin/sh
# The right list, and a status that says otherwise.
"$TWIN" run
exit 3

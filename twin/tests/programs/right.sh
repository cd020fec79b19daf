#!/bin/sh
# The fast model, as any program.
exec "$TWIN" run

#!/bin/sh
# Dies before its first line.
kill -9 $$

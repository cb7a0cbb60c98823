#!/bin/sh
# Makes counter and places.so: they are those of the programs elfload and elfaddr.
cd "$(dirname "$0")" || exit 1
cp ../../elfload/data/counter ../../elfaddr/data/places.so .

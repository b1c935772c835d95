#!/usr/bin/env bash
# tools/help.sh: what `make` has, by the lines that begin with #: in the Makefile.
cd "$(dirname "$0")/.." || exit 2
echo "Mantelorris: the command kernel. make ..."
awk '/^#: / { words = substr($0, 4); next } words != "" { sub(/:.*/, ""); printf "  %-11s %s\n", $0, words; words = "" }' Makefile
echo "README.md tells what it is, docs/HOW.md how it works, docs/GUIDE.md how to build a cabinet with it."

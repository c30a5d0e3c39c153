#!/bin/sh
# Makes the manual pages anew from their texts: docs/man/make.sh. It wants pandoc, and the pages are committed.
set -eu
CDPATH='' cd -P "$(dirname "$0")"
version=$(cat ../../VERSION)
for text in *.1.md; do
  pandoc --standalone --from markdown --to man --metadata footer="Buszlogem $version" -o "${text%.md}" "$text"
done

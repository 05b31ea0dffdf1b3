#!/bin/sh
# Runs the playground in Chromium without a screen. It needs chromium, and the library that run.sh makes.
#
#   in_browser.sh [FOLDER]      FOLDER gets the screenshots of docs/images
set -eu
folder=${1:+$(cd "$1" && pwd)}
cd "$(dirname "$0")"
PICTURES=$folder python3 -m unittest tests.in_chromium

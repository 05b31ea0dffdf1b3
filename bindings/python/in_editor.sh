#!/bin/sh
# Runs the language server in Neovim, in Emacs and in Vim. It needs nvim, and the library that run.sh makes. Without an
# emacs with eglot, or a vim with ALE, that test is skipped.
set -eu
cd "$(dirname "$0")"
python3 -m unittest tests.in_neovim tests.in_emacs tests.in_vim

#!/bin/sh
# A settled register takes no row: one reopens it first.
exec "$(dirname "$0")/refused.sh" 'let mut settled = register.settle(); let _ = settled.enter(row);' 'no method named `enter` found for type `Settled<Bounds>`'

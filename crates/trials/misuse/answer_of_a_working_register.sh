#!/bin/sh
# A working register has no answer: one settles it first.
exec "$(dirname "$0")/refused.sh" 'let _ = register.answer();' 'no method named `answer` found for type `Working<Bounds>`'

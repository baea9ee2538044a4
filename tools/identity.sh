#!/bin/sh
# Prints, in C, which build this is (command/identity.c): tools/identity.sh FOLDER
# FOLDER has libcorbelnib.a and, beside it, the proved module of which that was compiled, module.bc: the same bytes wherever the same
# sources were proved with the same kit, whatever the machine. What is not there is not known; nothing here fails.
module=$1/module.bc
sum=
if [ -s "$module" ]; then
    sum=$({ sha256sum "$module" || shasum -a 256 "$module"; } 2> /dev/null | sed -n '1s/^\([0-9a-f]\{64\}\) .*/\1/p')
fi
# of a library that came without its module it is not known either which kit proved it
kit=
if [ -n "$sum" ]; then
    kit=$(rt version 2> /dev/null | head -n 1 | tr -cd "A-Za-z0-9 ._:+-")
fi
echo "#define IDENTITY_MODULE \"${sum:-not known}\""
echo "#define IDENTITY_KIT \"${kit:-not known}\""

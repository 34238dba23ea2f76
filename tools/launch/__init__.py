"""What the launcher `./exsm` is made of beside its shell: the build, the look before it, and what a
build leaves a note of."""

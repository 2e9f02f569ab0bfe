# shellcheck shell=sh
# What ./hpr and ./hprkit do: runs the proved program of the name $name, in the repository in $here, with the words of the call. Where
# it isn't built, or its sources are newer, tools/build proves and builds it first, and tells on standard error how far that is. Standard
# output is the program's alone. Read by these launchers, never run.
#
# Two statuses are the launcher's own, and none of a program's: 70 where the program can't be built, or isn't built and HPR_BUILD is
# `never`, which forbids to prove anything; 127 where the toolchain isn't there.
out=crates/${name:?}/out
program=${here:?}/$out/$name
# what the program is made of, as tools/build notes it: as old as the last look at all of it
list=$here/$out/sources

# one look at the code and the definitions that the program is made of: nothing is newer than both the program and the last look
is_current() {
  [ -x "$program" ] && read -r parts 2>/dev/null <"$list" || return 1
  # shellcheck disable=SC2086 # the list's paths have no blanks
  [ -z "$(cd "$here" && exec find $parts -newer "$out/sources" -newer "$out/$name" -print -quit 2>&1)" ]
}

is_current || "$here/tools/build" "$name" || exit
exec "$program" "$@"

# shellcheck shell=dash disable=SC1090,SC2086,SC2154
# Starts a program of crates/. Each launcher in bin/ reads this, with its own path, followed through links, in $launcher.
#
# A built program starts at once where no file of its code is newer. Its time is that at which its build began, so that an
# edit during the build counts too. Where it is missing or older, launch/build.py proves and builds it first, and writes
# NAME.code beside it: the folders of its code. Definitions and proofs change nothing that a program does, and aren't
# looked at.
root=${launcher%/*}/..
name=${launcher##*/}
program=$root/crates/$name/out/$name

is_current() {
  [ -x "$program" ] && [ "$program.code" -nt "$root/crates.txt" ] && . "$program.code" &&
    (CDPATH='' cd -P "$root" && exec find crates.txt $code -newer "crates/$name/out/$name" -exec false {} +) >/dev/null 2>&1
}

is_current || python3 "$root/launch/build.py" "$name" || exit 70
exec "$program" "$@"
